/* Prints the version of the library, and the complement of a coverage. */
#include <iostream>
#include <ploverchaise.hpp>

int main()
{
    ploverchaise::Store store;
    std::cout << moc_version() << ' ' << store.ascii("0/0 1/4-5").complement().ascii();
}
