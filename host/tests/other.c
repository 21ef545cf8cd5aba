/* A shared object of somebody else's, with a function whose name is one of the library's: tests/prefix.rs builds it. */
int check(int number) {
    return 2 * number;
}

int doubled(int number) {
    return check(number);
}
