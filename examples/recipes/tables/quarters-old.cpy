       01  SALES-OLD.
           05  BRANCH          PIC X(3).
           05  QUARTER OCCURS 4.
               10  TAKEN       PIC S9(3)V99.
               10  PAID        PIC S9(3)V99.
