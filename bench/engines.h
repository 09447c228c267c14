/* One pass over the third table, both engines of the exact reading on tables that have a tree and that have none; printed if asked. */
void engines(int print);
