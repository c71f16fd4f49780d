       01  SALES-NEW.
           05  BRANCH          PIC X(3).
           05  QUARTER OCCURS 4.
               10  QUARTER-NO  PIC 9.
               10  PAID        PIC S9(5)V99 COMP-3.
               10  TAKEN       PIC S9(5)V99 COMP-3.
