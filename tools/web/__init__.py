"""The page without a server: one HTML file with the program inside, as WebAssembly.

The toolchain builds a static library for x86-64. On its way it hands its clang an LLVM module,
which is kept (`module`), given the layout and the name of another target (`retarget`), compiled
with a heap in C and linked (`webassembly`), given a memory of 32 bits (`narrow`), and put into a
page with the exercises of `examples/` (`page`). The toolchain supports no such path: what is proved
is the program, and the path is tested. """
