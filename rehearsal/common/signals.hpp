// The signals that the driver sends, as flags that a program's loop asks.
#pragma once

// From now on SIGTERM, SIGINT, SIGUSR1, SIGUSR2 and SIGHUP set flags and do nothing else; SIGPIPE is ignored.
void catch_signals();
bool asked_to_end(); // SIGTERM or SIGINT came
bool asked_first();  // SIGUSR1 came since the last time that this was asked
bool asked_second(); // SIGUSR2, likewise
bool asked_third();  // SIGHUP, likewise
long milliseconds(); // by a clock that never goes back
void sleep_ms(long ms);
