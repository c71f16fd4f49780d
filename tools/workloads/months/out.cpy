       01  OUT-REC.
           05 ACCOUNT-OUT PIC X(12).
           05 BRANCH-OUT PIC 9(4) COMP.
           05 MON-OUT OCCURS 12.
               10 MON-NO PIC 9(2).
               10 UNITS-OUT PIC 9(7) COMP-3.
               10 PAID-OUT PIC S9(9)V99 COMP-3.
               10 TAKEN-OUT PIC S9(9)V99 COMP-3.
