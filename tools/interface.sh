# Read by a shell at the top of the repository: sets `interface` to the number of libjri's interface, JRI_VERSION of include/jri.h,
# and `soname` to the name under which programs load its shared library. Both change with every call that changes.
interface=$(sed -n 's/^#define JRI_VERSION \([0-9]*\)$/\1/p' include/jri.h)
soname=libjri.so.0.$interface
