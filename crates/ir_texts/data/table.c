struct proc { unsigned state; unsigned files[4]; };
struct proc procs[4];
unsigned current;
static const char names[2][4] = { "ab", "c" };
int set_file(unsigned fd, unsigned file) {
  if (fd >= 4 || current >= 4) return -9;
  if (procs[current].files[fd]) return -17;
  procs[current].files[fd] = file;
  return names[fd & 1][0];
}
