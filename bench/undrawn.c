/* undrawn FILE..: decodes every frame of the files as `hookbarley decode --unfiltered` does, and writes nothing. What `hookbarley survey` is
 * measured beside (delivery.sh): the same reading of files, the picture call in place of the survey call. */
#include "answers.h"
#include "picture.h"

int main(int argc, char **argv) {
    size_t pictures = 0;
    for (int i = 1; i < argc; i++) {
        struct file file;
        struct frame frame;
        struct picture picture;
        uint32_t number;
        if (!file_open(argv[i], &file)) return 2;
        while (file_next(&file, &frame, &number)) {
            picture_decode(&picture, frame, FILTER_NONE);
            pictures += has_picture(picture.number) != 0;
            picture_free(&picture);
        }
        file_close(&file);
    }
    printf("%zu pictures\n", pictures);
    return 0;
}
