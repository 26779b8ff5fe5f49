# A specification without handlers: it asks only that the kernel text is read.
