/* One pass over the fifth table, term reports: up to 500 stored cost tables, and how the time grows with them; printed if asked. */
void reports(int print);
