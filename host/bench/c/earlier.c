/*
 * The driver is also built with the library of an earlier commit, to measure it beside this one. Such a library may lack a function that the
 * crate declares, and what is measured of it calls none of these. So that the driver links, each is here as a weak function that ends the
 * program; a library that has the function replaces it. ragansils_create is there in every library, but with other arguments in earlier
 * ones: what is measured of these never calls it, and has its tables created by the model.
 */
#include <stdlib.h>

__attribute__((weak)) void ragansils_shrink(void)
{
    abort();
}

__attribute__((weak)) void ragansils_back(void)
{
    abort();
}

__attribute__((weak)) void ragansils_convert(void)
{
    abort();
}

__attribute__((weak)) void ragansils_asked(void)
{
    abort();
}

__attribute__((weak)) void ragansils_part(void)
{
    abort();
}
