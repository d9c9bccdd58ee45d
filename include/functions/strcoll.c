/* strcoll for ccheck. */
#ifndef CCHECK_FUNCTION_strcoll
#define CCHECK_FUNCTION_strcoll

int strcoll(const char *a, const char *b)
{
    return strcmp(a, b);
}
#endif
