; What the compiled station calls for memory, handed on to heap.c. It is no C file, since a C function would answer the
; pair by a pointer: whether there was memory, and the address.
target datalayout = "e-m:e-p:64:64-p10:8:8-p20:8:8-i64:64-i128:128-n32:64-S128-ni:1:10:20"
target triple = "wasm64-unknown-unknown"

declare ptr @heap_alloc(i64)
declare ptr @heap_realloc(ptr, i64)
declare void @heap_free(ptr)

define internal { i64, i64 } @answer(ptr %block) alwaysinline {
  %address = ptrtoint ptr %block to i64
  %is_there = icmp ne ptr %block, null
  %told = zext i1 %is_there to i64
  %half = insertvalue { i64, i64 } poison, i64 %told, 0
  %whole = insertvalue { i64, i64 } %half, i64 %address, 1
  ret { i64, i64 } %whole
}

; The heap aligns every block to 16 bytes, which no type of the station goes past.
define { i64, i64 } @rattle_alloc(i64 %bytes, i64 %alignment) {
  %block = call ptr @heap_alloc(i64 %bytes)
  %answer = call { i64, i64 } @answer(ptr %block)
  ret { i64, i64 } %answer
}

define { i64, i64 } @rattle_realloc(ptr %given, i64 %before, i64 %bytes, i64 %alignment) {
  %block = call ptr @heap_realloc(ptr %given, i64 %bytes)
  %answer = call { i64, i64 } @answer(ptr %block)
  ret { i64, i64 } %answer
}

define void @rattle_dealloc(ptr %given) {
  call void @heap_free(ptr %given)
  ret void
}
