// The header in C++: a table in a class that frees it.
#include "locks.h"

class Table {
public:
    Table() { code = locks_make(&table); }
    ~Table() { locks_free(&table); }
    Table(const Table &) = delete;
    uint32_t ask(uint8_t job, const char *name)
    {
        lock_terms lock = locks_named(name);
        return locks_enqueue(&table, job, LOCKS_BLOCKING, 1, LOCKS_NO_QUOTA, &lock, 1);
    }
    uint32_t code;

private:
    locks table = LOCKS_NONE;
};

int main()
{
    Table table;
    return table.code != LOCKS_OK || table.ask(1, "X") != LOCKS_OK || table.ask(2, "X") != LOCKS_WAITS;
}
