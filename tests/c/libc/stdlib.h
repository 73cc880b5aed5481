#ifndef STDLIB_H
#define STDLIB_H
void exit(int status);
#endif
