/* What the library takes each struct of the header to be: sizes, and where each field lies. The library has the same
 * fields in the same order as `repr(C)` structs (`crates/hojzmated_c/src/forms.rt`, `handle.rt`), and there the same
 * sizes are proved. It is compiled as C and as C++, and has no code.
 */
#include "hojzmated.h"

#ifdef __cplusplus
#define HOLDS(fact) static_assert(fact, #fact)
#else
#define HOLDS(fact) _Static_assert(fact, #fact)
#endif
#define LIES(type, field, at, len) HOLDS(offsetof(type, field) == (at) && sizeof(((type *)0)->field) == (len))

HOLDS(sizeof(void *) == 8 && sizeof(size_t) == 8 && sizeof(bool) == 1);

HOLDS(sizeof(hz_core) == 16);
LIES(hz_core, seal, 0, 8);
LIES(hz_core, is_live, 8, 1);

HOLDS(sizeof(hz_config) == 56);
LIES(hz_config, pages, 0, 8);
LIES(hz_config, page_size, 8, 8);
LIES(hz_config, frames, 16, 8);
LIES(hz_config, room, 24, 8);
LIES(hz_config, correlated, 32, 8);
LIES(hz_config, retained, 40, 8);
LIES(hz_config, k, 48, 1);
LIES(hz_config, clients, 49, 1);

HOLDS(sizeof(hz_grant) == 24);
LIES(hz_grant, page, 0, 8);
LIES(hz_grant, serial, 8, 8);
LIES(hz_grant, client, 16, 1);

HOLDS(sizeof(hz_fixed) == 48);
LIES(hz_fixed, grant, 0, 24);
LIES(hz_fixed, lsn, 24, 8);
LIES(hz_fixed, evicted, 32, 8);
LIES(hz_fixed, kind, 40, 1);
LIES(hz_fixed, has_evicted, 41, 1);

HOLDS(sizeof(hz_unsaved) == 32);
LIES(hz_unsaved, page, 0, 8);
LIES(hz_unsaved, lsn, 8, 8);
LIES(hz_unsaved, first_lsn, 16, 8);
LIES(hz_unsaved, has_page, 24, 1);

HOLDS(sizeof(hz_stats) == 96);
LIES(hz_stats, hits, 0, 8);
LIES(hz_stats, faults, 8, 8);
LIES(hz_stats, evictions, 16, 8);
LIES(hz_stats, writes, 24, 8);
LIES(hz_stats, failed, 32, 8);
LIES(hz_stats, refused, 40, 8);
LIES(hz_stats, resident, 48, 8);
LIES(hz_stats, pinned, 56, 8);
LIES(hz_stats, unsaved, 64, 8);
LIES(hz_stats, loading, 72, 8);
LIES(hz_stats, writing, 80, 8);
LIES(hz_stats, discards, 88, 8);
