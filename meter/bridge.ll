; The bridge between the proved module and C on Arm and on 32-bit RISC-V.
;
; The module returns a reply of three 32-bit numbers as a 64-bit and a 32-bit one, as C on x86-64 expects. C on these expects the
; caller to say where the reply goes. Each function here has the name and the parameters of include/lischemur.h (meter/build
; ends the name in the layout's number), calls the proved one (which meter/build renames to end in `.proved`) with the same
; arguments, and puts the numbers where they go.

target triple = "thumbv7em-none-eabi"

%reply = type { i32, i32, i32 }
%record = type [56 x i8]

declare { i64, i32 } @lischemur_make.proved(ptr, ptr, i64, i32)
declare { i64, i32 } @lischemur_hand_out.proved(ptr, ptr, i64, i32)
declare { i64, i32 } @lischemur_take_back.proved(ptr, ptr, i64, i32)
declare { i64, i32 } @lischemur_write_map.proved(ptr byval(%record) align 4, ptr, i64, ptr, i64)
declare { i64, i32 } @lischemur_one_hand_out.proved(ptr, ptr, i64, i32)
declare { i64, i32 } @lischemur_one_take_back.proved(ptr, ptr, i64, i32)
declare { i64, i32 } @lischemur_one_write_map.proved(ptr byval(%record) align 4, ptr, i64, ptr, i64)

define void @lischemur_make(ptr sret(%reply) align 4 %to, ptr %record, ptr %heap, i64 %length, i32 %words) nounwind {
  %r = call { i64, i32 } @lischemur_make.proved(ptr %record, ptr %heap, i64 %length, i32 %words)
  call fastcc void @put({ i64, i32 } %r, ptr %to)
  ret void
}

define void @lischemur_hand_out(ptr sret(%reply) align 4 %to, ptr %record, ptr %heap, i64 %length, i32 %size) nounwind {
  %r = call { i64, i32 } @lischemur_hand_out.proved(ptr %record, ptr %heap, i64 %length, i32 %size)
  call fastcc void @put({ i64, i32 } %r, ptr %to)
  ret void
}

define void @lischemur_take_back(ptr sret(%reply) align 4 %to, ptr %record, ptr %heap, i64 %length, i32 %payload) nounwind {
  %r = call { i64, i32 } @lischemur_take_back.proved(ptr %record, ptr %heap, i64 %length, i32 %payload)
  call fastcc void @put({ i64, i32 } %r, ptr %to)
  ret void
}

define void @lischemur_write_map(ptr sret(%reply) align 4 %to, ptr byval(%record) align 4 %record, ptr %heap, i64 %length, ptr %room, i64 %bytes) nounwind {
  %r = call { i64, i32 } @lischemur_write_map.proved(ptr byval(%record) align 4 %record, ptr %heap, i64 %length, ptr %room, i64 %bytes)
  call fastcc void @put({ i64, i32 } %r, ptr %to)
  ret void
}

define void @lischemur_one_hand_out(ptr sret(%reply) align 4 %to, ptr %record, ptr %heap, i64 %length, i32 %size) nounwind {
  %r = call { i64, i32 } @lischemur_one_hand_out.proved(ptr %record, ptr %heap, i64 %length, i32 %size)
  call fastcc void @put({ i64, i32 } %r, ptr %to)
  ret void
}

define void @lischemur_one_take_back(ptr sret(%reply) align 4 %to, ptr %record, ptr %heap, i64 %length, i32 %payload) nounwind {
  %r = call { i64, i32 } @lischemur_one_take_back.proved(ptr %record, ptr %heap, i64 %length, i32 %payload)
  call fastcc void @put({ i64, i32 } %r, ptr %to)
  ret void
}

define void @lischemur_one_write_map(ptr sret(%reply) align 4 %to, ptr byval(%record) align 4 %record, ptr %heap, i64 %length, ptr %room, i64 %bytes) nounwind {
  %r = call { i64, i32 } @lischemur_one_write_map.proved(ptr byval(%record) align 4 %record, ptr %heap, i64 %length, ptr %room, i64 %bytes)
  call fastcc void @put({ i64, i32 } %r, ptr %to)
  ret void
}

; number and value are the halves of the 64-bit one, compared is the 32-bit one
define internal fastcc void @put({ i64, i32 } %r, ptr %to) alwaysinline nounwind {
  %both = extractvalue { i64, i32 } %r, 0
  %number = trunc i64 %both to i32
  %high = lshr i64 %both, 32
  %value = trunc i64 %high to i32
  %compared = extractvalue { i64, i32 } %r, 1
  store i32 %number, ptr %to, align 4
  %second = getelementptr i8, ptr %to, i32 4
  store i32 %value, ptr %second, align 4
  %third = getelementptr i8, ptr %to, i32 8
  store i32 %compared, ptr %third, align 4
  ret void
}
