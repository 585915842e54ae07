/* Prints the version of the library, and the complement of a coverage. */
#include <ploverchaise.h>
#include <stdio.h>
#include <string.h>

int main(void)
{
    const char *read = "0/0 1/4-5";
    moc_store store;
    moc_text written = {NULL, 0};
    if (!moc_store_open(&store))
        return 1;
    moc_result set = moc_read_ascii(&store, (const uint8_t *)read, strlen(read));
    set = moc_complement(&store, set.first);
    if (moc_write_ascii(&store, set.first, MOC_NO_ORDER, &written).code != MOC_OK)
        return 1;
    printf("%s %s", moc_version(), written.bytes);
    moc_text_free(&written);
    moc_store_close(&store);
    return 0;
}
