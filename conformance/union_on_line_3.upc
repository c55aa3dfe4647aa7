

union u { int x; };
