@fd = global i8 -1
@refs = global i8 0
define i32 @sys_open() {
  %v = load i8, ptr @fd
  %c = icmp eq i8 %v, -1
  br i1 %c, label %ok, label %bad
ok:
  store i8 1, ptr @fd
  ret i32 0
bad:
  ret i32 -1
}
