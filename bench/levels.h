/* One pass over the sixth table, the reading of levels on tables that have levels and that have none; printed if asked. */
void levels(int print);
