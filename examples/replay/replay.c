/*
 * Plays recorded sessions on the library that it is linked with.
 *
 *   replay FILE...
 *
 * Says of each how it went: every answer as recorded, or the first that is not, with its line in
 * the file and in the firmware. The exit status is 1 where one differs, or cannot be read to its
 * end. docs/RECORDING.md has the form of a file.
 */
#include <stdio.h>

#include "xosera_model.h"

int main(int argc, char **argv)
{
    int status = 0;
    if (argc < 2) {
        fputs("replay: FILE is missing\nusage: replay FILE...\n", stderr);
        return 2;
    }
    for (int i = 1; i < argc; i++) {
        const xosera_replayed went = xosera_replay(argv[i]);
        puts(went.text);
        status = went.equal && went.whole ? status : 1;
    }
    return status;
}
