; Memory as the module asks for it: a pair of whether it was given (1 or 0) and the block. C compilers hand a pair
; back in other ways on other systems, so these two are written in the module's own language. A request of 0 bytes
; asks for as many as its alignment, which is never more than 16. Where memory is refused the block is one that may be
; let go.
@nothing = internal global i64 0

declare ptr @system_malloc(i64)
declare ptr @system_realloc(ptr, i64)
declare void @system_free(ptr)

define { i64, i64 } @system_rattle_alloc(i64 %count, i64 %align) nounwind {
  %none = icmp eq i64 %count, 0
  %bytes = select i1 %none, i64 %align, i64 %count
  %block = call ptr @system_malloc(i64 %bytes)
  %pair = call { i64, i64 } @pair_of(ptr %block)
  ret { i64, i64 } %pair
}

define { i64, i64 } @system_rattle_realloc(ptr %old, i64 %kept, i64 %count, i64 %align) nounwind {
  %none = icmp eq i64 %count, 0
  %bytes = select i1 %none, i64 %align, i64 %count
  %block = call ptr @system_realloc(ptr %old, i64 %bytes)
  %pair = call { i64, i64 } @pair_of(ptr %block)
  ret { i64, i64 } %pair
}

define void @system_rattle_dealloc(ptr %block) nounwind {
  call void @system_free(ptr %block)
  ret void
}

; A thread waits in a loop: nothing is to be done.
define void @system_pause() nounwind {
  ret void
}

define internal { i64, i64 } @pair_of(ptr %block) nounwind {
  %refused = icmp eq ptr %block, null
  %given = select i1 %refused, i64 0, i64 1
  %address = ptrtoint ptr %block to i64
  %nothing = ptrtoint ptr @nothing to i64
  %shown = select i1 %refused, i64 %nothing, i64 %address
  %half = insertvalue { i64, i64 } undef, i64 %given, 0
  %pair = insertvalue { i64, i64 } %half, i64 %shown, 1
  ret { i64, i64 } %pair
}
