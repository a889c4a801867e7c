/* Prints the batch of a line of bench/run, in bytes: words LINE. */
#define main bench_main
#include "../bench.c"
#undef main

int main(int argc, char **argv)
{
    for (size_t i = 0; argc == 2 && i < sizeof lines / sizeof *lines; i++)
        if (strcmp(argv[1], lines[i].name) == 0) {
            lines[i].prepare();
            return fwrite(batch, 4, batch_words, stdout) != batch_words;
        }
    return bench_main(1, argv);
}
