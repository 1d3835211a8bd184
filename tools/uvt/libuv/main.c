#include <stdio.h>
#include <string.h>
#include <uv.h>

void run_files(const char *input_path, const char *output_path);

int main(int count, char **words) {
    if (count == 2 && strcmp(words[1], "--version") == 0) {
        puts(uv_version_string());
        return 0;
    }
    if (count != 3) {
        fprintf(stderr, "libuv-run INPUT OUTPUT, or libuv-run --version\n");
        return 2;
    }
    run_files(words[1], words[2]);
}
