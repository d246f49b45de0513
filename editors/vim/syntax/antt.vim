" Syntax of definitions and proofs (*.antt).
if exists("b:current_syntax")
  finish
endif

syntax keyword anttKeyword use module record data where abbrev unfoldable let in case of with pub mod as rule ruleset
syntax keyword anttConditional if then else
syntax keyword anttTactic auto search grind simp omega rw subst refl
syntax keyword anttType Type Bool List Option Unit ℕ ℤ
syntax match anttOperator "[≡≤≥≠→↔λ×¬∈∷⟦⟧◌∀∃]"
syntax match anttNumber "\<\d\+\>"
syntax match anttComment "--.*$" contains=@Spell

highlight default link anttKeyword Keyword
highlight default link anttConditional Conditional
highlight default link anttTactic Function
highlight default link anttType Type
highlight default link anttOperator Operator
highlight default link anttNumber Number
highlight default link anttComment Comment

let b:current_syntax = "antt"
