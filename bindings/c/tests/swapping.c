/* Puts a link to a file in the place of each file .postcopy-* of a folder, as fast as it can, until it is killed.

       swapping FOLDER FILE */
#define _GNU_SOURCE
#include <dirent.h>
#include <string.h>
#include <unistd.h>

int main(int count, char **words) {
    if (count != 3 || chdir(words[1])) return 2;
    for (;;) {
        DIR *folder = opendir(".");
        if (!folder) return 2;
        for (struct dirent *it; (it = readdir(folder));)
            if (it->d_type == DT_REG && !strncmp(it->d_name, ".postcopy-", 10) && !unlink(it->d_name) && symlink(words[2], it->d_name)) return 2;
        closedir(folder);
    }
}
