/* Prints the assembly of a library of exports with versions, or its version script.

   usage: versions asm N BUILD    the assembly of N functions, which answer other numbers in each build
          versions script N       the script that gives function i the version i % 20 */
#include <stdio.h>
#include <stdlib.h>
#include <string.h>

enum { VERSIONS = 20 };

int main(int count, char **words) {
    if (count == 4 && strcmp(words[1], "asm") == 0) {
        long functions = atol(words[2]), build = atol(words[3]);
        puts(".text");
        for (long i = 0; i < functions; i++)
            printf(".globl library_function_%ld\n.type library_function_%ld, @function\nlibrary_function_%ld:\n"
                   "movl $%ld, %%eax\nret\n.size library_function_%ld, .-library_function_%ld\n", i, i, i, i + build, i, i);
        puts(".section .note.GNU-stack,\"\",@progbits");
        return 0;
    }
    if (count == 3 && strcmp(words[1], "script") == 0) {
        long functions = atol(words[2]);
        for (long version = 0; version < VERSIONS; version++) {
            printf("LIBRARY_1.%ld {\n  global:\n", version);
            for (long i = version; i < functions; i += VERSIONS) printf("    library_function_%ld;\n", i);
            if (version == 0) puts("  local: *;\n};");
            else printf("} LIBRARY_1.%ld;\n", version - 1);
        }
        return 0;
    }
    return 64;
}
