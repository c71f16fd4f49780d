       01  OUT-REC.
           05 O-SOURCE PIC X(4).
           05 O-CUST-ID PIC 9(10).
           05 O-LAST-NAME PIC X(25).
           05 O-FIRST-NAME PIC X(15).
           05 O-STREET PIC X(30).
           05 O-CITY PIC X(18).
           05 O-DISTRICT PIC X(2).
           05 O-POSTCODE PIC X(8).
           05 O-OPENED-ON.
               10 O-OPENED-YEAR PIC 9(4).
               10 O-OPENED-MONTH PIC 9(2).
               10 O-OPENED-DAY PIC 9(2).
           05 O-PAID-ON.
               10 O-PAID-YEAR PIC 9(4).
               10 O-PAID-MONTH PIC 9(2).
               10 O-PAID-DAY PIC 9(2).
           05 O-BALANCE PIC S9(11)V99 COMP-3.
           05 O-BALANCE-TEXT PIC Z(8)9.99-.
           05 O-CREDIT-LIMIT PIC S9(9)V99.
           05 O-RATE-NOW PIC 9(3)V9(6).
           05 O-BRANCH PIC 9(5).
           05 O-SERIAL PIC S9(9) COMP.
           05 O-STATE-CODE PIC X(2).
           05 O-RISK PIC 9(3) COMP-3.
           05 O-PHONE PIC X(16).
           05 O-AMOUNT-DUE PIC S9(9)V99 COMP-3.
           05 O-AMOUNT-TEXT PIC $$$$$,$$9.99CR.
           05 O-PAYMENT OCCURS 5.
               10 O-PAID PIC S9(7)V99.
               10 O-PAID-DAYS PIC 9(5) COMP.
           05 O-REMARK OCCURS 5.
               10 O-REMARK-TEXT PIC X(12).
           05 O-AGENT PIC X(10).
           05 O-BATCH PIC 9(6).
           05 O-RESERVED PIC X(10).
           05 O-CONVERTED-ON PIC 9(8).
