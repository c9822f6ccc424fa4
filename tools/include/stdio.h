// What a program here needs of <stdio.h>: the kit's compiler comes without headers.
int printf(const char *format, ...);
