       01  IN-REC.
           05 POLICY PIC X(8).
           05 ELEM OCCURS 500.
               10 KIND PIC X(6).
               10 PREMIUM PIC S9(5)V99 COMP-3.
               10 AGE PIC 9(4).
               10 STATE PIC S9(4) COMP.
