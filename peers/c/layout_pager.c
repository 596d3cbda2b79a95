/* What the pager's library takes each struct of its header to be, as layout.c has it of the core. The Rust below has
 * the same structs (`bindings/rust/capi/src/abi.rs`). It is compiled as C and as C++, and has no code.
 */
#include "hojzmated_pager.h"

#ifdef __cplusplus
#define HOLDS(fact) static_assert(fact, #fact)
#else
#define HOLDS(fact) _Static_assert(fact, #fact)
#endif
#define LIES(type, field, at, len) HOLDS(offsetof(type, field) == (at) && sizeof(((type *)0)->field) == (len))

HOLDS(sizeof(hz_pager) == 8);
LIES(hz_pager, own, 0, 8);

HOLDS(sizeof(hz_ref) == 32);
LIES(hz_ref, bytes, 0, 8);
LIES(hz_ref, page, 8, 8);
LIES(hz_ref, serial, 16, 8);
LIES(hz_ref, slot, 24, 4);
LIES(hz_ref, how, 28, 4);

HOLDS(sizeof(hz_pager_config) == 80);
LIES(hz_pager_config, size, 0, 8);
LIES(hz_pager_config, pages, 8, 8);
LIES(hz_pager_config, page_size, 16, 8);
LIES(hz_pager_config, frames, 24, 8);
LIES(hz_pager_config, parts, 32, 8);
LIES(hz_pager_config, correlated, 40, 8);
LIES(hz_pager_config, retained, 48, 8);
LIES(hz_pager_config, pin_wait_ms, 56, 8);
LIES(hz_pager_config, k, 64, 1);
LIES(hz_pager_config, tells_each_pin, 65, 1);
LIES(hz_pager_config, read_only, 66, 1);
LIES(hz_pager_config, grows, 67, 1);
LIES(hz_pager_config, unused, 68, 4);
LIES(hz_pager_config, observer, 72, 8);

HOLDS(sizeof(hz_observer) == 72);
LIES(hz_observer, size, 0, 8);
LIES(hz_observer, own, 8, 8);
LIES(hz_observer, read, 16, 8);
LIES(hz_observer, write_out, 24, 8);
LIES(hz_observer, log, 32, 8);
LIES(hz_observer, sync, 40, 8);
LIES(hz_observer, evict, 48, 8);
LIES(hz_observer, wait, 56, 8);
LIES(hz_observer, fault, 64, 8);

HOLDS(sizeof(hz_io) == 48);
LIES(hz_io, size, 0, 8);
LIES(hz_io, own, 8, 8);
LIES(hz_io, read, 16, 8);
LIES(hz_io, write, 24, 8);
LIES(hz_io, make_log_durable, 32, 8);
LIES(hz_io, sync, 40, 8);

HOLDS(sizeof(hz_pager_fault) == 24);
LIES(hz_pager_fault, page, 0, 8);
LIES(hz_pager_fault, lsn, 8, 8);
LIES(hz_pager_fault, error, 16, 4);
LIES(hz_pager_fault, number, 20, 2);
LIES(hz_pager_fault, has_page, 22, 1);

HOLDS(sizeof(hz_pager_stats) == 96);
LIES(hz_pager_stats, hits, 0, 8);
LIES(hz_pager_stats, faults, 8, 8);
LIES(hz_pager_stats, evictions, 16, 8);
LIES(hz_pager_stats, writes, 24, 8);
LIES(hz_pager_stats, failed, 32, 8);
LIES(hz_pager_stats, refused, 40, 8);
LIES(hz_pager_stats, discards, 48, 8);
LIES(hz_pager_stats, waits, 56, 8);
LIES(hz_pager_stats, resident, 64, 8);
LIES(hz_pager_stats, pinned, 72, 8);
LIES(hz_pager_stats, unsaved, 80, 8);
LIES(hz_pager_stats, memory, 88, 8);
