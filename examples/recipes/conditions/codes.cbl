           MOVE CUST-NO OF CUST TO CUST-NO OF CUST-NEW.
           EVALUATE STATUS-CODE
               WHEN "AC" WHEN "RE"
                   MOVE "ACTIVE" TO STATE
               WHEN "BL"
                   MOVE "BLOCKED" TO STATE
               WHEN OTHER
                   MOVE "UNKNOWN" TO STATE
           END-EVALUATE.
           IF STATUS-CODE NOT = "BL" AND CREDIT-LIMIT OF CUST NUMERIC
               MOVE CREDIT-LIMIT OF CUST TO CREDIT-LIMIT OF CUST-NEW
           END-IF.
