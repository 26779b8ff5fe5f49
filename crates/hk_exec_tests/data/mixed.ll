@mixed = global { i8, i32 } zeroinitializer, align 4
