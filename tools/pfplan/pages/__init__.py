"""How answers are told: as texts, as pages of HTML, and as pictures."""
