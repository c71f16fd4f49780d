       01  ACCOUNT-NEW.
           05  ACCOUNT-NO  PIC 9(6).
           05  NAME        PIC X(10).
           05  BALANCE     PIC S9(7)V99 COMP-3.
