       01  OUT-REC.
           05 POLICY-OUT PIC X(10).
           05 ELEM-OUT OCCURS 500.
               10 STATE-OUT PIC S9(4).
               10 PREMIUM-OUT PIC S9(7)V99 COMP-3.
               10 AGE-OUT PIC 9(5) COMP-3.
               10 KIND-OUT PIC X(8).
