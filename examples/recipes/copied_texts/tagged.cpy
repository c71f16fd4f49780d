       01  :TAG:-REC.
           05  :TAG:-NO    PIC 9(4).
           05  :TAG:-NAME  PIC X(5).
