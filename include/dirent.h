/* dirent.h for ccheck: types and declarations alone. */
#ifndef CCHECK_DIRENT_H
#define CCHECK_DIRENT_H
#include <sys/types.h>
struct dirent { ino_t d_ino; char d_name[256]; };
typedef struct ccheck_directory { char b; } DIR;
DIR *opendir(const char *name);
struct dirent *readdir(DIR *directory);
int closedir(DIR *directory);
void rewinddir(DIR *directory);
#endif
