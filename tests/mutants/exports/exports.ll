
; The C interface of crates/exports, as exports/plumtree.c has that of plumtree. In LLVM's language, so that the functions are compiled into it, as in the archive of
; tools/staticlib.sh.
define void @blake3_hash_into(ptr %content, i64 %length, ptr %out) {
  call void @unproved_blake3_hash_into(ptr %content, i64 %length, ptr %out)
  ret void
}

define zeroext i1 @time_cache_is_sound(ptr %block, i64 %length, i64 %a, i64 %s, i64 %n, i64 %b, i64 %t, i64 %m) {
  %r = call zeroext i1 @unproved_time_cache_is_sound(ptr %block, i64 %length, i64 %a, i64 %s, i64 %n, i64 %b, i64 %t, i64 %m)
  ret i1 %r
}

define zeroext i1 @time_cache_insert(ptr %block, i64 %length, i64 %a, i64 %s, i64 %n, i64 %b, i64 %t, i64 %m, i64 %w0, i64 %w1, i64 %w2, i64 %w3, i64 %expires, ptr %out) {
  %r = call zeroext i1 @unproved_time_cache_insert(ptr %block, i64 %length, i64 %a, i64 %s, i64 %n, i64 %b, i64 %t, i64 %m, i64 %w0, i64 %w1, i64 %w2, i64 %w3, i64 %expires, ptr %out)
  ret i1 %r
}

define zeroext i1 @time_cache_expire_until(ptr %block, i64 %length, i64 %a, i64 %s, i64 %n, i64 %b, i64 %t, i64 %m, i64 %instant, ptr %out, ptr %gone, i64 %room) {
  %r = call zeroext i1 @unproved_time_cache_expire_until(ptr %block, i64 %length, i64 %a, i64 %s, i64 %n, i64 %b, i64 %t, i64 %m, i64 %instant, ptr %out, ptr %gone, i64 %room)
  ret i1 %r
}

define zeroext i1 @time_cache_contains_key(ptr %block, i64 %length, i64 %a, i64 %s, i64 %n, i64 %b, i64 %t, i64 %m, i64 %w0, i64 %w1, i64 %w2, i64 %w3) {
  %r = call zeroext i1 @unproved_time_cache_contains_key(ptr %block, i64 %length, i64 %a, i64 %s, i64 %n, i64 %b, i64 %t, i64 %m, i64 %w0, i64 %w1, i64 %w2, i64 %w3)
  ret i1 %r
}

define zeroext i1 @time_cache_contains_later(ptr %block, i64 %length, i64 %a, i64 %s, i64 %n, i64 %b, i64 %t, i64 %m, i64 %w0, i64 %w1, i64 %w2, i64 %w3, i64 %instant) {
  %r = call zeroext i1 @unproved_time_cache_contains_later(ptr %block, i64 %length, i64 %a, i64 %s, i64 %n, i64 %b, i64 %t, i64 %m, i64 %w0, i64 %w1, i64 %w2, i64 %w3, i64 %instant)
  ret i1 %r
}

define i64 @time_cache_entries_later(ptr %block, i64 %length, i64 %a, i64 %s, i64 %n, i64 %b, i64 %t, i64 %m, i64 %instant) {
  %r = call i64 @unproved_time_cache_entries_later(ptr %block, i64 %length, i64 %a, i64 %s, i64 %n, i64 %b, i64 %t, i64 %m, i64 %instant)
  ret i64 %r
}

define i64 @time_cache_rows_later(ptr %block, i64 %length, i64 %a, i64 %s, i64 %n, i64 %b, i64 %t, i64 %m, i64 %instant) {
  %r = call i64 @unproved_time_cache_rows_later(ptr %block, i64 %length, i64 %a, i64 %s, i64 %n, i64 %b, i64 %t, i64 %m, i64 %instant)
  ret i64 %r
}
