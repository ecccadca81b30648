; The three functions of the heap as the kit's module declares them, over malloc, realloc and free: whether there is memory, and where.
@nothing = internal global i8 0
declare ptr @malloc(i64)
declare ptr @realloc(ptr, i64)
declare void @free(ptr)

define internal { i64, i64 } @answer(ptr %block) {
  %is_there = icmp ne ptr %block, null
  %told = zext i1 %is_there to i64
  %place = select i1 %is_there, ptr %block, ptr @nothing
  %number = ptrtoint ptr %place to i64
  %first = insertvalue { i64, i64 } poison, i64 %told, 0
  %both = insertvalue { i64, i64 } %first, i64 %number, 1
  ret { i64, i64 } %both
}

define { i64, i64 } @rattle_alloc(i64 %size, i64 %align) {
  %is_empty = icmp eq i64 %size, 0
  %asked = select i1 %is_empty, i64 %align, i64 %size
  %block = call ptr @malloc(i64 %asked)
  %told = call { i64, i64 } @answer(ptr %block)
  ret { i64, i64 } %told
}

define { i64, i64 } @rattle_realloc(ptr %old, i64 %kept, i64 %size, i64 %align) {
  %is_empty = icmp eq i64 %size, 0
  %asked = select i1 %is_empty, i64 %align, i64 %size
  %block = call ptr @realloc(ptr %old, i64 %asked)
  %told = call { i64, i64 } @answer(ptr %block)
  ret { i64, i64 } %told
}

define void @rattle_dealloc(ptr %block) {
  call void @free(ptr %block)
  ret void
}
