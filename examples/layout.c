/* The records of redis_streams.h as the library lays them out if numbers have 64 bits: how large each is, and
   the places of its members. It only has to compile.

   usage: layout */
#include "redis_streams.h"

#define AT(record, member, place) _Static_assert(offsetof(record, member) == (place), #record "." #member)
#define SIZE(record, size) _Static_assert(sizeof(record) == (size), #record)

_Static_assert(sizeof(bool) == 1 && sizeof(size_t) == 8 && _Alignof(size_t) == 8, "bool and size_t");

SIZE(redis_span, 16);
SIZE(redis_field, 32);
AT(redis_field, value, 16);
SIZE(redis_entry, 56);
AT(redis_entry, from, 16);
AT(redis_entry, to, 24);
AT(redis_entry, deleted, 32);
AT(redis_entry, delivered, 33);
AT(redis_entry, elapsed, 40);
AT(redis_entry, count, 48);
SIZE(redis_stream, 32);
SIZE(redis_found, 48);
AT(redis_found, error, 32);
SIZE(redis_node, 40);
AT(redis_node, text, 8);
AT(redis_node, members, 24);
AT(redis_node, end, 32);
SIZE(redis_claim, 32);
AT(redis_claim, claimed, 16);
SIZE(redis_read_settings, 32);
AT(redis_read_settings, has_claim, 3);
AT(redis_read_settings, count, 8);
AT(redis_read_settings, claim, 24);
SIZE(redis_trim_settings, 48);
AT(redis_trim_settings, policy, 4);
AT(redis_trim_settings, approximate, 8);
AT(redis_trim_settings, has_limit, 9);
AT(redis_trim_settings, maxlen, 16);
AT(redis_trim_settings, minid, 24);
AT(redis_trim_settings, limit, 40);
SIZE(redis_add_settings, 88);
AT(redis_add_settings, idempotency, 4);
AT(redis_add_settings, producer, 8);
AT(redis_add_settings, idempotent_id, 24);
AT(redis_add_settings, trim, 40);
SIZE(redis_claim_settings, 48);
AT(redis_claim_settings, has_lastid, 5);
AT(redis_claim_settings, idle, 8);
AT(redis_claim_settings, retry, 24);
AT(redis_claim_settings, lastid, 32);
SIZE(redis_autoclaim_settings, 16);
AT(redis_autoclaim_settings, justid, 1);
AT(redis_autoclaim_settings, count, 8);
SIZE(redis_pending_settings, 16);
AT(redis_pending_settings, has_consumer, 1);
AT(redis_pending_settings, idle, 8);
SIZE(redis_group_place, 40);
AT(redis_group_place, group, 8);
AT(redis_group_place, consumer, 24);
SIZE(redis_records_found, 40);
AT(redis_records_found, records, 8);
AT(redis_records_found, text, 16);
AT(redis_records_found, error, 24);
SIZE(redis_group_info, 72);
AT(redis_group_info, last_delivered_id, 16);
AT(redis_group_info, consumers, 32);
AT(redis_group_info, pending, 40);
AT(redis_group_info, has_entries_read, 48);
AT(redis_group_info, has_lag, 49);
AT(redis_group_info, entries_read, 56);
AT(redis_group_info, lag, 64);
SIZE(redis_pending_entry, 48);
AT(redis_pending_entry, consumer, 16);
AT(redis_pending_entry, last_delivered_ms, 32);
AT(redis_pending_entry, times_delivered, 40);
SIZE(redis_pending_consumer, 24);
AT(redis_pending_consumer, pending, 16);
SIZE(redis_pending_summary, 40);
AT(redis_pending_summary, start_id, 8);
AT(redis_pending_summary, end_id, 24);

int main(void) { return 0; }
