       01  OUT-REC.
           05 O-SOURCE PIC X(2).
           05 O-COMPANY PIC X(6).
           05 O-ACCOUNT PIC 9(12).
           05 O-CONTRA PIC S9(13) COMP-3.
           05 O-POSTING PIC S9(18).
           05 O-REFERENCE PIC S9(18) COMP-3.
           05 O-FIRST-POSTING PIC S9(18) COMP.
           05 O-POSTED-ON PIC 9(8).
           05 O-ENTERED-ON PIC 9(8).
           05 O-PRINTED-ON PIC 9999/99/99.
           05 O-VALUED-ON PIC 9(8) COMP-3.
           05 O-COST-CENTRE PIC X(12).
           05 O-MONEY PIC X(3).
           05 O-HOME-MONEY PIC X(3).
           05 O-SIDE PIC X.
           05 O-AMOUNT PIC S9(16)V99.
           05 O-AMOUNT-TEXT PIC Z(15)9.99-.
           05 O-AMOUNT-HOME PIC S9(18)V99 COMP-3.
           05 O-HOME-TEXT PIC $$$,$$$,$$$,$$$,$$$,$$9.99CR.
           05 O-BALANCE PIC S9(16)V99 COMP-3.
           05 O-OPENING PIC S9(16)V99 COMP-3.
           05 O-CLOSING PIC -(16)9.99.
           05 O-EXCHANGE-RATE PIC 9(5)V9(8).
           05 O-TAX-KIND PIC X(2).
           05 O-TAX PIC S9(13)V99.
           05 O-TAX-TEXT PIC Z,ZZZ,ZZZ,ZZZ,ZZ9.99-.
           05 O-QUANTITY PIC S9(11)V9(3).
           05 O-MONTH-POSTED PIC 9(2).
           05 O-YEAR-POSTED PIC 9(4).
           05 O-YEAR-CLOSED PIC S9(4) COMP.
           05 O-POSTING-TEXT PIC X(50).
           05 O-SHORT-TEXT PIC X(20).
           05 O-CLERK PIC X(8).
           05 O-CHANGED-BY PIC X(12).
           05 O-BATCH PIC S9(9) COMP-3.
           05 O-REVERSED PIC 9(8).
