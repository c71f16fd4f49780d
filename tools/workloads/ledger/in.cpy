       01  IN-REC.
           05 COMPANY PIC X(4).
           05 ACCOUNT PIC 9(10).
           05 POSTING PIC S9(18) COMP.
           05 POSTED-ON PIC 9(8).
           05 VALUED-ON PIC 9(8).
           05 COST-CENTRE PIC X(10).
           05 MONEY PIC X(3).
           05 SIDE PIC X.
           05 AMOUNT PIC S9(16)V99 COMP-3.
           05 AMOUNT-HOME PIC S9(16)V99 COMP-3.
           05 BALANCE PIC S9(16)V99.
           05 EXCHANGE-RATE PIC 9(5)V9(6) COMP-3.
           05 TAX-KIND PIC X(2).
           05 TAX PIC S9(13)V99 COMP-3.
           05 QUANTITY PIC S9(9)V9(3) COMP-3.
           05 MONTH-POSTED PIC 9(2).
           05 YEAR-POSTED PIC 9(4) COMP.
           05 POSTING-TEXT PIC X(40).
           05 CLERK PIC X(8).
           05 BATCH PIC S9(9) COMP.
