void exit(int status) __attribute__((noreturn)); /* start.S */
