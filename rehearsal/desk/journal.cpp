// The journal over SQLite's C interface.
#include "journal.hpp"

#include <stdexcept>

namespace desk {

namespace {

const char *const TABLES =
    "CREATE TABLE IF NOT EXISTS event (seq INTEGER PRIMARY KEY, book INTEGER, record BLOB, refusal INTEGER, answer BLOB);"
    "CREATE TABLE IF NOT EXISTS outbox (id INTEGER PRIMARY KEY, seq INTEGER, n INTEGER, session TEXT, kind INTEGER,"
    " record BLOB, sent INTEGER, repeat INTEGER);"
    "CREATE INDEX IF NOT EXISTS waiting ON outbox (id) WHERE sent = 0;";

void bind_bytes(sqlite3_stmt *statement, int at, const Bytes &bytes) {
    sqlite3_bind_blob(statement, at, bytes.data(), int(bytes.size()), SQLITE_TRANSIENT);
}

Bytes bytes_of(sqlite3_stmt *statement, int column) {
    const void *blob = sqlite3_column_blob(statement, column);
    const int length = sqlite3_column_bytes(statement, column);
    return blob ? Bytes(static_cast<const char *>(blob), size_t(length)) : Bytes();
}

} // namespace

Journal::Journal(const std::string &path, bool sync) {
    if (sqlite3_open(path.c_str(), &db_) != SQLITE_OK) fail();
    sqlite3_busy_timeout(db_, 10000); // somebody may be looking into it
    run("PRAGMA journal_mode = TRUNCATE");
    run(sync ? "PRAGMA synchronous = FULL" : "PRAGMA synchronous = OFF");
    run("BEGIN IMMEDIATE");
    run(TABLES);
    run("COMMIT");
    seq_ = uint64_t(number("SELECT coalesce(max(seq), 0) FROM event"));
    row_ = number("SELECT coalesce(max(id), 0) FROM outbox");
}

Journal::~Journal() {
    for (const auto &statement : statements_) sqlite3_finalize(statement.second);
    sqlite3_close(db_);
}

void Journal::fail() const {
    throw std::runtime_error(std::string("the journal: ") + sqlite3_errmsg(db_));
}

void Journal::run(const char *query) {
    if (sqlite3_exec(db_, query, nullptr, nullptr, nullptr) != SQLITE_OK) fail();
}

// A query is prepared once; `query` is one of the literals below.
sqlite3_stmt *Journal::statement(const char *query) {
    sqlite3_stmt *&found = statements_[query];
    if (!found && sqlite3_prepare_v2(db_, query, -1, &found, nullptr) != SQLITE_OK) fail();
    sqlite3_reset(found);
    return found;
}

void Journal::step(sqlite3_stmt *statement) {
    if (sqlite3_step(statement) != SQLITE_DONE) fail();
    sqlite3_reset(statement);
}

int64_t Journal::number(const char *query) {
    sqlite3_stmt *found = statement(query);
    if (sqlite3_step(found) != SQLITE_ROW) fail();
    const int64_t value = sqlite3_column_int64(found, 0);
    sqlite3_reset(found);
    return value;
}

void Journal::begin() {
    step(statement("BEGIN IMMEDIATE"));
}

void Journal::commit() {
    step(statement("COMMIT"));
}

uint64_t Journal::put_event(size_t book, const Bytes &record, uint32_t refusal, const Bytes &answer) {
    sqlite3_stmt *put = statement("INSERT INTO event VALUES (?1, ?2, ?3, ?4, ?5)");
    sqlite3_bind_int64(put, 1, int64_t(++seq_));
    sqlite3_bind_int64(put, 2, int64_t(book));
    bind_bytes(put, 3, record);
    sqlite3_bind_int64(put, 4, refusal);
    bind_bytes(put, 5, answer);
    step(put);
    return seq_;
}

int64_t Journal::put_row(const Row &row) {
    sqlite3_stmt *put = statement("INSERT INTO outbox VALUES (?1, ?2, ?3, ?4, ?5, ?6, 0, ?7)");
    sqlite3_bind_int64(put, 1, ++row_);
    sqlite3_bind_int64(put, 2, int64_t(row.seq));
    sqlite3_bind_int64(put, 3, row.n);
    sqlite3_bind_text(put, 4, row.session.data(), int(row.session.size()), SQLITE_TRANSIENT);
    sqlite3_bind_int64(put, 5, row.kind);
    bind_bytes(put, 6, row.record);
    sqlite3_bind_int64(put, 7, row.repeat);
    step(put);
    return row_;
}

void Journal::note(int64_t row, Sent sent) {
    sqlite3_stmt *put = statement("UPDATE outbox SET sent = ?2 WHERE id = ?1");
    sqlite3_bind_int64(put, 1, row);
    sqlite3_bind_int64(put, 2, sent);
    step(put);
}

void Journal::mark_waiting_as_repeats() {
    step(statement("UPDATE outbox SET repeat = 1 WHERE sent = 0"));
}

void Journal::each_event(const std::function<void(const Kept &)> &with) {
    sqlite3_stmt *all = statement("SELECT seq, book, record, refusal, answer FROM event ORDER BY seq");
    int said;
    while ((said = sqlite3_step(all)) == SQLITE_ROW) {
        with(Kept{uint64_t(sqlite3_column_int64(all, 0)), size_t(sqlite3_column_int64(all, 1)), bytes_of(all, 2),
                  uint32_t(sqlite3_column_int64(all, 3)), bytes_of(all, 4)});
    }
    if (said != SQLITE_DONE) fail();
    sqlite3_reset(all);
}

std::vector<Row> Journal::waiting() {
    sqlite3_stmt *all =
        statement("SELECT id, seq, n, session, kind, record, repeat FROM outbox WHERE sent = 0 ORDER BY id");
    std::vector<Row> rows;
    int said;
    while ((said = sqlite3_step(all)) == SQLITE_ROW) {
        rows.push_back(Row{sqlite3_column_int64(all, 0), uint64_t(sqlite3_column_int64(all, 1)), sqlite3_column_int(all, 2),
                           bytes_of(all, 3), sqlite3_column_int(all, 4), bytes_of(all, 5),
                           sqlite3_column_int(all, 6) != 0});
    }
    if (said != SQLITE_DONE) fail();
    sqlite3_reset(all);
    return rows;
}

} // namespace desk
