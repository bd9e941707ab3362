/* memcpy and memset for a target without a C library, which tools/archive puts into the archive. They are weak: a program's own go before them. */
typedef __SIZE_TYPE__ size_t;

__attribute__((weak)) void *memcpy(void *restrict to, const void *restrict from, size_t length)
{
    for (size_t k = 0; k < length; k++)
        ((unsigned char *)to)[k] = ((const unsigned char *)from)[k];
    return to;
}

__attribute__((weak)) void *memset(void *to, int byte, size_t length)
{
    for (size_t k = 0; k < length; k++)
        ((unsigned char *)to)[k] = (unsigned char)byte;
    return to;
}
