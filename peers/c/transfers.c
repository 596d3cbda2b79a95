/* Transfers between accounts in SQLite, Berkeley DB or LMDB: those of bindings/rust/examples/ledger, with the same keys
 * and values, drawn in the same way.
 *
 *     peers/c/transfers FOLDER ACCOUNTS THREADS SECONDS SYNC CACHE [LOOKS]
 *
 * It is compiled with -DSQLITE, -DBERKELEY or -DLMDB. A transaction reads three rows and writes them: two accounts and the
 * counter of its thread. SYNC is 1 where each is kept once it has ended, and 0 where nothing is synced. CACHE is how many
 * bytes of pages may be in memory; LMDB has no such limit. The files are made anew in the folder. With LOOKS there are no
 * transactions: each thread looks so many accounts up at a time, each by itself.
 *
 * Printed: transactions or look-ups a second of the wall clock over all threads, and the 99th percentile of the times in
 * milliseconds, of a transaction or of so many look-ups.
 */
#include <pthread.h>
#include <stdint.h>
#include <stdio.h>
#include <stdlib.h>
#include <string.h>
#include <time.h>
#include <unistd.h>

enum { APART = 16, LONGEST = 256, NUMBERS = 24, MOST_THREADS = 14, MOST_TIMES = 1 << 22 };
#define COUNTERS (UINT64_C(1) << 63)

static const char *folder;
static uint64_t accounts, cache, looks;
static int is_synced;
static volatile int has_ended;

static void fail(const char *why)
{
    fprintf(stderr, "transfers: %s\n", why);
    exit(1);
}

static uint64_t mixed(uint64_t word)
{
    word = (word ^ word >> 30) * UINT64_C(0xbf58476d1ce4e5b9);
    word = (word ^ word >> 30) * UINT64_C(0x94d049bb133111eb);
    return word ^ word >> 31;
}

static uint64_t below(uint64_t *state, uint64_t bound)
{
    *state += UINT64_C(0x9e3779b97f4a7c15);
    return mixed(*state) % bound;
}

static uint64_t account(uint64_t *state)
{
    double part = (double)below(state, 1 << 20) / (1 << 20);
    return (uint64_t)(part * part * part * part * (double)accounts) * APART;
}

/* What a key has. */
struct row {
    int64_t numbers[3];
};

static size_t encode(uint64_t key, const struct row *row, unsigned char *value)
{
    uint64_t seed = mixed(key ^ mixed((uint64_t)row->numbers[1])), size = seed % (LONGEST - NUMBERS + 1);
    memcpy(value, row->numbers, NUMBERS);
    for (uint64_t at = 0; at < size; at++)
        value[NUMBERS + at] = (unsigned char)(seed >> at % 57);
    return NUMBERS + size;
}

/* What each engine has to do: a session for each thread, and transactions that may be refused, and are begun anew. */
struct session;
static void make(void);
static struct session *session(void);
static void begin(struct session *);
static int get(struct session *, uint64_t key, struct row *); /* 0 where it is refused */
static int put(struct session *, uint64_t key, const unsigned char *, size_t, int is_new);
static int commit(struct session *);
static void undo(struct session *);
static void look(struct session *, uint64_t key, struct row *); /* without a transaction around it */
static void keep(void); /* called each second */

#ifdef SQLITE
#include <sqlite3.h>

struct session {
    sqlite3 *db;
    sqlite3_stmt *begin, *get, *put, *commit, *undo;
};

static void step(sqlite3_stmt *statement)
{
    if (sqlite3_step(statement) != SQLITE_DONE)
        fail(sqlite3_errmsg(sqlite3_db_handle(statement)));
    sqlite3_reset(statement);
}

static sqlite3_stmt *statement(sqlite3 *db, const char *text)
{
    sqlite3_stmt *made;
    if (sqlite3_prepare_v2(db, text, -1, &made, NULL))
        fail(sqlite3_errmsg(db));
    return made;
}

static struct session *session(void)
{
    struct session *it = malloc(sizeof *it);
    char text[400];
    snprintf(text, sizeof text, "%s/sqlite", folder);
    if (sqlite3_open(text, &it->db))
        fail(sqlite3_errmsg(it->db));
    sqlite3_busy_timeout(it->db, 60000);
    snprintf(text, sizeof text,
             "PRAGMA journal_mode=WAL; PRAGMA synchronous=%s; PRAGMA cache_size=-%llu;"
             "CREATE TABLE IF NOT EXISTS rows(key INTEGER PRIMARY KEY, value BLOB)",
             is_synced ? "FULL" : "OFF", (unsigned long long)cache >> 10);
    if (sqlite3_exec(it->db, text, NULL, NULL, NULL))
        fail(sqlite3_errmsg(it->db));
    it->begin = statement(it->db, "BEGIN IMMEDIATE");
    it->get = statement(it->db, "SELECT value FROM rows WHERE key = ?");
    it->put = statement(it->db, "INSERT OR REPLACE INTO rows VALUES(?, ?)");
    it->commit = statement(it->db, "COMMIT");
    it->undo = statement(it->db, "ROLLBACK");
    return it;
}

static void make(void) {}
static void keep(void) {}

static void begin(struct session *it)
{
    step(it->begin);
}

static int get(struct session *it, uint64_t key, struct row *row)
{
    sqlite3_bind_int64(it->get, 1, (int64_t)(key ^ COUNTERS));
    if (sqlite3_step(it->get) != SQLITE_ROW || sqlite3_column_bytes(it->get, 0) < NUMBERS)
        fail("a row is gone");
    memcpy(row->numbers, sqlite3_column_blob(it->get, 0), NUMBERS);
    sqlite3_reset(it->get);
    return 1;
}

static int put(struct session *it, uint64_t key, const unsigned char *value, size_t size, int is_new)
{
    (void)is_new;
    sqlite3_bind_int64(it->put, 1, (int64_t)(key ^ COUNTERS));
    sqlite3_bind_blob(it->put, 2, value, (int)size, SQLITE_STATIC);
    step(it->put);
    return 1;
}

static int commit(struct session *it)
{
    step(it->commit);
    return 1;
}

static void undo(struct session *it)
{
    step(it->undo);
}

static void look(struct session *it, uint64_t key, struct row *row)
{
    get(it, key, row);
}
#endif

#ifdef BERKELEY
#include <db.h>

struct session {
    DB_TXN *txn;
};

static DB_ENV *env;
static DB *rows;

static void must(int number)
{
    if (number)
        fail(db_strerror(number));
}

static void make(void)
{
    must(db_env_create(&env, 0));
    must(env->set_cachesize(env, (uint32_t)(cache >> 30), (uint32_t)(cache & ((1 << 30) - 1)), 1));
    must(env->set_lk_detect(env, DB_LOCK_DEFAULT));
    must(env->set_lg_bsize(env, 4 << 20));
    if (!is_synced)
        must(env->set_flags(env, DB_TXN_NOSYNC, 1));
    must(env->open(env, folder,
                   DB_CREATE | DB_INIT_TXN | DB_INIT_LOG | DB_INIT_LOCK | DB_INIT_MPOOL | DB_THREAD | DB_PRIVATE, 0644));
    must(env->log_set_config(env, DB_LOG_AUTO_REMOVE, 1));
    must(db_create(&rows, env, 0));
    must(rows->set_pagesize(rows, 4096));
    must(rows->open(rows, NULL, "rows", NULL, DB_BTREE, DB_CREATE | DB_AUTO_COMMIT | DB_THREAD, 0644));
}

static void keep(void)
{
    must(env->txn_checkpoint(env, 0, 0, 0));
}

static struct session *session(void)
{
    return malloc(sizeof(struct session));
}

static void begin(struct session *it)
{
    must(env->txn_begin(env, NULL, &it->txn, 0));
}

/* Whether it was done, and was not the victim of a deadlock. */
static int is_done(int number)
{
    if (number && number != DB_LOCK_DEADLOCK)
        fail(db_strerror(number));
    return !number;
}

static int get(struct session *it, uint64_t key, struct row *row)
{
    unsigned char found[LONGEST];
    uint64_t big = __builtin_bswap64(key);
    DBT asked = {.data = &big, .size = sizeof big};
    DBT value = {.data = found, .ulen = sizeof found, .flags = DB_DBT_USERMEM};
    if (!is_done(rows->get(rows, it->txn, &asked, &value, DB_RMW)))
        return 0;
    memcpy(row->numbers, found, NUMBERS);
    return 1;
}

static int put(struct session *it, uint64_t key, const unsigned char *value, size_t size, int is_new)
{
    (void)is_new;
    uint64_t big = __builtin_bswap64(key);
    DBT named = {.data = &big, .size = sizeof big}, some = {.data = (void *)value, .size = (uint32_t)size};
    return is_done(rows->put(rows, it->txn, &named, &some, 0));
}

static int commit(struct session *it)
{
    return is_done(it->txn->commit(it->txn, 0));
}

static void undo(struct session *it)
{
    must(it->txn->abort(it->txn));
}

static void look(struct session *it, uint64_t key, struct row *row)
{
    (void)it;
    unsigned char found[LONGEST];
    uint64_t big = __builtin_bswap64(key);
    DBT asked = {.data = &big, .size = sizeof big};
    DBT value = {.data = found, .ulen = sizeof found, .flags = DB_DBT_USERMEM};
    must(rows->get(rows, NULL, &asked, &value, 0));
    memcpy(row->numbers, found, NUMBERS);
}
#endif

#ifdef LMDB
#include <lmdb.h>

struct session {
    MDB_txn *txn, *reader;
};

static MDB_env *env;
static MDB_dbi rows;

static void must(int number)
{
    if (number)
        fail(mdb_strerror(number));
}

static void make(void)
{
    MDB_txn *txn;
    must(mdb_env_create(&env));
    must(mdb_env_set_mapsize(env, UINT64_C(16) << 30));
    must(mdb_env_open(env, folder, is_synced ? 0 : MDB_NOSYNC, 0644));
    must(mdb_txn_begin(env, NULL, 0, &txn));
    must(mdb_dbi_open(txn, NULL, MDB_INTEGERKEY, &rows));
    must(mdb_txn_commit(txn));
}

static void keep(void) {}

static struct session *session(void)
{
    return calloc(1, sizeof(struct session));
}

static void begin(struct session *it)
{
    must(mdb_txn_begin(env, NULL, 0, &it->txn));
}

static int get(struct session *it, uint64_t key, struct row *row)
{
    MDB_val asked = {sizeof key, &key}, value;
    must(mdb_get(it->txn, rows, &asked, &value));
    memcpy(row->numbers, value.mv_data, NUMBERS);
    return 1;
}

static int put(struct session *it, uint64_t key, const unsigned char *value, size_t size, int is_new)
{
    MDB_val named = {sizeof key, &key}, some = {size, (void *)value};
    must(mdb_put(it->txn, rows, &named, &some, is_new ? MDB_APPEND : 0));
    return 1;
}

static int commit(struct session *it)
{
    must(mdb_txn_commit(it->txn));
    return 1;
}

static void undo(struct session *it)
{
    mdb_txn_abort(it->txn);
}

static void look(struct session *it, uint64_t key, struct row *row)
{
    if (it->reader)
        must(mdb_txn_renew(it->reader));
    else
        must(mdb_txn_begin(env, NULL, MDB_RDONLY, &it->reader));
    MDB_val asked = {sizeof key, &key}, value;
    must(mdb_get(it->reader, rows, &asked, &value));
    memcpy(row->numbers, value.mv_data, NUMBERS);
    mdb_txn_reset(it->reader);
}
#endif

static int change(struct session *it, uint64_t key, int64_t by, int64_t changes)
{
    struct row row;
    unsigned char value[LONGEST];
    if (!get(it, key, &row))
        return 0;
    row.numbers[0] += by;
    row.numbers[1] += changes;
    return put(it, key, value, encode(key, &row, value), 0);
}

static void fill(void)
{
    struct session *it = session();
    for (uint64_t row = 0; row < accounts + MOST_THREADS;) {
        begin(it);
        for (uint64_t end = row + 1000; row < end && row < accounts + MOST_THREADS; row++) {
            uint64_t key = row < accounts ? row * APART : COUNTERS + row - accounts;
            struct row first = {{row < accounts ? 1000 : 0, 0, 0}};
            unsigned char value[LONGEST];
            if (!put(it, key, value, encode(key, &first, value), 1))
                fail("the rows cannot be put");
        }
        if (!commit(it))
            fail("the rows cannot be kept");
    }
    keep();
}

struct worker {
    pthread_t thread;
    uint64_t number, random, count;
    int64_t found; /* so that the compiler leaves no look out */
    float *times;
};

static double now(void)
{
    struct timespec time;
    clock_gettime(CLOCK_MONOTONIC, &time);
    return (double)time.tv_sec + (double)time.tv_nsec / 1e9;
}

static void *work(void *own)
{
    struct worker *me = own;
    struct session *it = session();
    while (!has_ended && looks && me->count < MOST_TIMES) {
        struct row row;
        double began = now();
        for (uint64_t i = 0; i < looks; i++) {
            look(it, account(&me->random), &row);
            me->found += row.numbers[0];
        }
        me->times[me->count++] = (float)(now() - began);
    }
    while (!has_ended && me->count < MOST_TIMES) {
        uint64_t from = account(&me->random), to = account(&me->random);
        int64_t amount = (int64_t)below(&me->random, 100);
        double began = now();
        if (from == to)
            to = (from + APART) % (accounts * APART);
        for (;;) {
            begin(it);
            if (!change(it, from, -amount, 1) || !change(it, to, amount, 1) ||
                !change(it, COUNTERS + me->number, 1, 2))
                undo(it);
            else if (commit(it))
                break;
        }
        me->times[me->count++] = (float)(now() - began);
    }
    return NULL;
}

static int order(const void *one, const void *other)
{
    float a = *(const float *)one, b = *(const float *)other;
    return (a > b) - (a < b);
}

int main(int count, char **words)
{
    if (count != 7 && count != 8)
        fail("FOLDER ACCOUNTS THREADS SECONDS SYNC CACHE [LOOKS]");
    folder = words[1];
    accounts = strtoull(words[2], NULL, 10);
    uint64_t threads = strtoull(words[3], NULL, 10), done = 0;
    double seconds = atof(words[4]);
    is_synced = atoi(words[5]);
    cache = strtoull(words[6], NULL, 10);
    looks = count == 8 ? strtoull(words[7], NULL, 10) : 0;
    if (!accounts || !threads || threads > MOST_THREADS)
        fail("the numbers are out of their limits");
    make();
    fill();
    struct worker workers[MOST_THREADS];
    double began = now();
    for (uint64_t number = 0; number < threads; number++) {
        struct worker *it = &workers[number];
        *it = (struct worker){.number = number, .random = 256 + number, .times = malloc(MOST_TIMES * sizeof(float))};
        if (!it->times || pthread_create(&it->thread, NULL, work, it))
            fail("no thread");
    }
    for (double last = began; now() - began < seconds; usleep(10000))
        if (now() - last >= 1) {
            keep();
            last = now();
        }
    has_ended = 1;
    for (uint64_t number = 0; number < threads; number++) {
        pthread_join(workers[number].thread, NULL);
        done += workers[number].count;
    }
    double elapsed = now() - began;
    float *times = malloc((done + 1) * sizeof *times);
    for (uint64_t number = 0, at = 0; number < threads; at += workers[number++].count)
        memcpy(times + at, workers[number].times, workers[number].count * sizeof *times);
    qsort(times, done, sizeof *times, order);
    printf("%.0f a second, p99 %.3f ms\n", (double)(done * (looks ? looks : 1)) / elapsed,
           done ? times[done * 99 / 100] * 1e3 : 0);
    return 0;
}
