"""The section of USB 2.0 that each rule of chapter 9 is of; ECN is that on interface associations."""

SECTIONS = {1: "9.6.3", 2: "9.6.5", 3: "9.6.5", 4: "9.6.5", 5: "9.6.5", 6: "9.6.6", 7: "9.6.5, 9.6.6", 8: "9.6.5", 9: "9.6.3",
            10: "9.4.7, 9.6.3", 11: "9.6.1, 9.6.2", 12: "9.6.6", 13: "ECN"}
