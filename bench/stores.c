// The twin of `crates/bench` over LMDB and SQLite: the same words, calls, output and checksums.
//
//     stores versions
//     stores lmdb FOLDER PAIRS CALLS SEED SHORTEST LONGEST FLUSH WORKLOAD..
//     stores sqlite FILE PAIRS CALLS SEED SHORTEST LONGEST FLUSH WORKLOAD..
//     stores durable-lmdb FOLDER ..
//     stores durable-sqlite FILE ..
//
// The workloads are `load`, `gets`, `mix`, `removals` and `batches`. Where the database has a flush, a transaction ends here, and so it
// does after each batch and each workload. LMDB syncs nothing, and keeps its pages in a file of the folder; FILE may be `:memory:`. An
// insert and a removal answer the value that stood; where these stores want a call more for it, they make one. Those that are durable
// bring each transaction to the disk before it ends, LMDB as it does by itself and SQLite by a log (WAL, synchronous=FULL), and their
// times are times of the clock, since they wait for the disk.
#include <lmdb.h>
#include <sqlite3.h>
#include <stdint.h>
#include <stdio.h>
#include <stdlib.h>
#include <string.h>
#include <time.h>

enum { STARTS = 256, BATCH = 100 };
#define CHOICES (1ull << 63)
#define NONE (1ull << 63) // no value, in a checksum
#define ROOM (4ull << 30) // the most bytes of the file of LMDB

// A key is 8 bytes, in the order in which they lie in this number. The bytes of a value lie elsewhere.
typedef uint64_t key_bytes;
typedef struct {
    const uint8_t *data;
    size_t len;
} bytes;

// What a store does. A get, an insert and a removal answer the value that stood, as it counts in a checksum.
typedef struct {
    void (*open)(const char *place);
    void (*begin)(int writes);
    void (*commit)(void);
    uint64_t (*get)(key_bytes key);
    uint64_t (*insert)(key_bytes key, bytes value);
    uint64_t (*removal)(key_bytes key);
    void (*put)(key_bytes key, bytes value);
} store;

static uint64_t digest(const uint8_t *data, size_t len) {
    uint64_t digest = len;
    for (size_t place = 0; place < len && place < 6; place++) digest = digest << 8 ^ data[place];
    return digest;
}

static void check(int is_well, const char *what, const char *why) {
    if (is_well) return;
    fprintf(stderr, "%s: %s\n", what, why);
    exit(2);
}

static MDB_env *env;
static MDB_txn *txn;
static MDB_dbi dbi;

static void lmdb_check(int code, const char *what) { check(code == MDB_SUCCESS, what, mdb_strerror(code)); }

static void lmdb_begin(int writes) { lmdb_check(mdb_txn_begin(env, NULL, writes ? 0 : MDB_RDONLY, &txn), "begin"); }
static void lmdb_commit(void) { lmdb_check(mdb_txn_commit(txn), "commit"); }

static int is_durable;

static void lmdb_open(const char *folder) {
    lmdb_check(mdb_env_create(&env), "create");
    lmdb_check(mdb_env_set_mapsize(env, ROOM), "size");
    lmdb_check(mdb_env_open(env, folder, is_durable ? 0 : MDB_NOSYNC | MDB_WRITEMAP | MDB_NOMETASYNC, 0600), "open");
    lmdb_begin(1);
    lmdb_check(mdb_dbi_open(txn, NULL, 0, &dbi), "table");
    lmdb_commit();
}

static uint64_t lmdb_get(key_bytes key) {
    MDB_val k = {sizeof key, &key}, v;
    int code = mdb_get(txn, dbi, &k, &v);
    if (code == MDB_NOTFOUND) return NONE;
    lmdb_check(code, "get");
    return digest(v.mv_data, v.mv_size);
}

static void lmdb_put(key_bytes key, bytes value) {
    MDB_val k = {sizeof key, &key}, v = {value.len, (void *)value.data};
    lmdb_check(mdb_put(txn, dbi, &k, &v, 0), "put");
}

static uint64_t lmdb_insert(key_bytes key, bytes value) {
    MDB_val k = {sizeof key, &key}, v = {value.len, (void *)value.data};
    int code = mdb_put(txn, dbi, &k, &v, MDB_NOOVERWRITE);
    if (code == MDB_SUCCESS) return NONE;
    check(code == MDB_KEYEXIST, "insert", mdb_strerror(code));
    uint64_t old = digest(v.mv_data, v.mv_size);
    lmdb_put(key, value);
    return old;
}

static uint64_t lmdb_removal(key_bytes key) {
    MDB_val k = {sizeof key, &key};
    uint64_t old = lmdb_get(key);
    if (old != NONE) lmdb_check(mdb_del(txn, dbi, &k, NULL), "delete");
    return old;
}

enum { BEGIN, COMMIT, GET, PUT, DELETE, STATEMENTS };
static const char *const TEXTS[STATEMENTS] = {"BEGIN", "COMMIT", "SELECT value FROM pairs WHERE key = ?1",
                                              "REPLACE INTO pairs VALUES (?1, ?2)", "DELETE FROM pairs WHERE key = ?1"};
static sqlite3 *db;
static sqlite3_stmt *statements[STATEMENTS];

static void sqlite_check(int is_well, const char *what) { check(is_well, what, sqlite3_errmsg(db)); }

static void sqlite_open(const char *file) {
    sqlite_check(sqlite3_open(file, &db) == SQLITE_OK, "open");
    if (is_durable)
        sqlite_check(sqlite3_exec(db, "PRAGMA journal_mode=WAL; PRAGMA synchronous=FULL", NULL, NULL, NULL) == SQLITE_OK, "log");
    const char *table = "CREATE TABLE pairs (key BLOB PRIMARY KEY, value BLOB NOT NULL) WITHOUT ROWID";
    sqlite_check(sqlite3_exec(db, table, NULL, NULL, NULL) == SQLITE_OK, "table");
    for (int it = 0; it < STATEMENTS; it++)
        sqlite_check(sqlite3_prepare_v2(db, TEXTS[it], -1, &statements[it], NULL) == SQLITE_OK, TEXTS[it]);
}

static void sqlite_bind(int it, int place, const void *data, size_t len) {
    sqlite_check(sqlite3_bind_blob(statements[it], place, data, (int)len, SQLITE_STATIC) == SQLITE_OK, TEXTS[it]);
}

// Runs a statement that gives no row.
static void sqlite_run(int it) {
    sqlite_check(sqlite3_step(statements[it]) == SQLITE_DONE, TEXTS[it]);
    sqlite3_reset(statements[it]);
}

static void sqlite_begin(int writes) { (void)writes, sqlite_run(BEGIN); }
static void sqlite_commit(void) { sqlite_run(COMMIT); }

static uint64_t sqlite_get(key_bytes key) {
    uint64_t found = NONE;
    sqlite_bind(GET, 1, &key, sizeof key);
    int code = sqlite3_step(statements[GET]);
    sqlite_check(code == SQLITE_ROW || code == SQLITE_DONE, TEXTS[GET]);
    if (code == SQLITE_ROW)
        found = digest(sqlite3_column_blob(statements[GET], 0), (size_t)sqlite3_column_bytes(statements[GET], 0));
    sqlite3_reset(statements[GET]);
    return found;
}

static void sqlite_put(key_bytes key, bytes value) {
    sqlite_bind(PUT, 1, &key, sizeof key);
    sqlite_bind(PUT, 2, value.data, value.len);
    sqlite_run(PUT);
}

static uint64_t sqlite_insert(key_bytes key, bytes value) {
    uint64_t old = sqlite_get(key);
    sqlite_put(key, value);
    return old;
}

static uint64_t sqlite_removal(key_bytes key) {
    uint64_t old = sqlite_get(key);
    sqlite_bind(DELETE, 1, &key, sizeof key);
    sqlite_run(DELETE);
    return old;
}

static const store LMDB = {lmdb_open, lmdb_begin, lmdb_commit, lmdb_get, lmdb_insert, lmdb_removal, lmdb_put};
static const store SQLITE = {sqlite_open, sqlite_begin, sqlite_commit, sqlite_get, sqlite_insert, sqlite_removal, sqlite_put};

static const store *it;
static uint64_t pairs, calls, seed, shortest, longest, flush, changes;
static uint8_t *row;

static uint64_t scattered(uint64_t place) {
    uint64_t number = place * 0x9e3779b97f4a7c15;
    number = (number ^ number >> 30) * 0xbf58476d1ce4e5b9;
    number = (number ^ number >> 27) * 0x94d049bb133111eb;
    return number ^ number >> 31;
}

static key_bytes key_of(uint64_t place) { return __builtin_bswap64(scattered(seed + place)); }

static bytes value_of(uint64_t number) {
    number = scattered(seed ^ number);
    return (bytes){row + number % STARTS, shortest + (number >> 32) % (longest - shortest + 1)};
}

static uint64_t choice(uint64_t turn) { return scattered(seed + CHOICES + turn); }
static uint64_t loaded(uint64_t turn) { return pairs ? choice(turn) % pairs : 0; }

// Counts a change, and ends the transaction where the database flushes.
static uint64_t changed(uint64_t old) {
    if (++changes != flush) return old;
    changes = 0;
    it->commit();
    it->begin(1);
    return old;
}

static uint64_t load(uint64_t turn) { return changed(it->insert(key_of(turn), value_of(turn))); }
static uint64_t get(uint64_t turn) { return it->get(key_of(loaded(turn))); }
static uint64_t removal(uint64_t turn) { return changed(it->removal(key_of(turn))); }

static uint64_t mixed(uint64_t turn) {
    uint64_t which = choice(turn), place = loaded(turn);
    if ((which >> 32) % 100 >= 5) return it->get(key_of(place));
    return changed(it->insert(key_of(which % 2 == 0 ? place : pairs + place), value_of(~turn)));
}

// The inserts of a batch, which answer nothing: how many there are.
static uint64_t batch(uint64_t number) {
    uint64_t from = number * BATCH, end = from + BATCH < calls ? from + BATCH : calls;
    for (uint64_t turn = from; turn < end; turn++) it->put(key_of(pairs + turn), value_of(~turn));
    it->commit();
    it->begin(1);
    return end - from;
}

// The time in microseconds: of the processor, or of the clock where the disk is waited for.
static long long now(void) {
    struct timespec time;
    clock_gettime(is_durable ? CLOCK_MONOTONIC : CLOCK_PROCESS_CPUTIME_ID, &time);
    return time.tv_sec * 1000000ll + time.tv_nsec / 1000;
}

// Runs a workload of so many turns, and prints what it came to and how long it took.
static void measure(const char *name, uint64_t (*turn)(uint64_t), uint64_t turns, uint64_t told, int writes) {
    uint64_t sum = 0;
    long long start = now();
    it->begin(writes);
    for (uint64_t number = 0; number < turns; number++) sum = (sum << 1 | sum >> 63) ^ turn(number);
    it->commit();
    long long time = now() - start;
    printf("%s %llu %016llx\n", name, (unsigned long long)told, (unsigned long long)sum);
    fprintf(stderr, "%s %lld\n", name, time);
}

static int run(const char *name) {
    if (!strcmp(name, "load")) measure(name, load, pairs, pairs, 1);
    else if (!strcmp(name, "gets")) measure(name, get, calls, calls, 0);
    else if (!strcmp(name, "mix")) measure(name, mixed, calls, calls, 1);
    else if (!strcmp(name, "removals")) measure(name, removal, calls, calls, 1);
    else if (!strcmp(name, "batches")) measure(name, batch, (calls + BATCH - 1) / BATCH, calls, 1);
    else return 0;
    return 1;
}

int main(int count, char **words) {
    uint64_t *const numbers[] = {&pairs, &calls, &seed, &shortest, &longest, &flush};
    if (count == 2 && !strcmp(words[1], "versions"))
        return printf("LMDB %d.%d.%d\nSQLite %s\n", MDB_VERSION_MAJOR, MDB_VERSION_MINOR, MDB_VERSION_PATCH, sqlite3_libversion()) < 0;
    if (count < 9) return 1;
    is_durable = !strncmp(words[1], "durable-", 8);
    const char *kind = words[1] + (is_durable ? 8 : 0);
    if (strcmp(kind, "lmdb") && strcmp(kind, "sqlite")) return 1;
    it = strcmp(kind, "lmdb") ? &SQLITE : &LMDB;
    for (int place = 0; place < 6; place++) *numbers[place] = strtoull(words[3 + place], NULL, 10);
    row = malloc(STARTS + longest);
    check(row != NULL, "row", "no memory");
    for (uint64_t place = 0; place < STARTS + longest; place++) row[place] = (uint8_t)(scattered(place) >> 56);
    it->open(words[2]);
    for (int place = 9; place < count; place++)
        if (!run(words[place])) return 1;
    return 0;
}
