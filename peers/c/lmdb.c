/* Look-ups a second in LMDB, by many threads: the keys and values of the tree of bench.c, at random in the same order.
 *
 *     peers/c/lmdb SECONDS THREADS
 *
 * A key is an even number, and has a value of 64 bytes, of which the first word is the key and 7. An operation is the
 * look-up of a key, in a transaction of its own that only reads. Each thread has one, which it renews. The file
 * lmdb.pages is made anew in the folder.
 *
 * Printed: operations a second of the wall clock, over all threads.
 */
#include <lmdb.h>
#include <string.h>
#include <unistd.h>

#include "threads.h"

enum { KEYS = 16 * 254 * 56, MAP = 1 << 28 }; /* as many keys as that tree has */

static MDB_env *env;
static MDB_dbi rows;
static _Thread_local MDB_txn *reader;

static void must(int number)
{
    if (number)
        fail(mdb_strerror(number));
}

/* Looks up the key of a row. */
static uint64_t operate(uint64_t row)
{
    uint64_t key = 2 * row, found;
    MDB_val asked = {sizeof key, &key}, value;
    if (reader)
        must(mdb_txn_renew(reader));
    else
        must(mdb_txn_begin(env, NULL, MDB_RDONLY, &reader));
    must(mdb_get(reader, rows, &asked, &value));
    memcpy(&found, value.mv_data, sizeof found);
    if (found != key + 7)
        fail("a wrong value");
    mdb_txn_reset(reader);
    return found;
}

static void fill(void)
{
    MDB_txn *writer;
    must(mdb_txn_begin(env, NULL, 0, &writer));
    must(mdb_dbi_open(writer, NULL, MDB_INTEGERKEY, &rows));
    for (uint64_t row = 0; row < KEYS; row++) {
        uint64_t key = 2 * row, words[8] = {key + 7};
        MDB_val named = {sizeof key, &key}, value = {sizeof words, words};
        must(mdb_put(writer, rows, &named, &value, MDB_APPEND));
    }
    must(mdb_txn_commit(writer));
}

static void start(void)
{
    unlink("lmdb.pages");
    unlink("lmdb.pages-lock");
    must(mdb_env_create(&env));
    must(mdb_env_set_mapsize(env, MAP));
    must(mdb_env_open(env, "lmdb.pages", MDB_NOSUBDIR | MDB_NOSYNC | MDB_NOTLS, 0600));
    fill();
    for (uint64_t row = 0; row < KEYS; row += 16) /* each page of the tree is used once */
        operate(row);
}

int main(int argc, char **argv)
{
    double seconds = argc == 3 ? atof(argv[1]) : 0;
    int threads = argc == 3 ? atoi(argv[2]) : 0;
    if (seconds <= 0 || threads < 1 || threads > MOST_THREADS)
        fail("SECONDS THREADS");
    start();
    printf("%.0f\n", rate_of((unsigned)threads, KEYS, seconds));
    return 0;
}
