" Vim syntax file for the documents of dagc and dagrun (*.dag).
if exists('b:current_syntax')
  finish
endif

syntax case match

" Keywords are names that have their meaning by their place: in front of a line, or behind the names
" that these stand behind. They are highlighted where no parenthesis makes them a function.
syntax keyword dagKeyword qualifier scope interface class module includes replaces component in modules
syntax keyword dagKeyword defineComponent entryPoint provides binds produces bindsOptionalOf multibinds
syntax keyword dagKeyword bindsInstance dependsOn entry open with link to ask

syntax keyword dagWord new if then else await

syntax keyword dagType Text Int Set Map Optional Provider Lazy Producer Produced

syntax keyword dagHilt SingletonComponent ActivityRetainedComponent ServiceComponent ViewModelComponent
syntax keyword dagHilt ActivityComponent FragmentComponent ViewComponent ViewWithFragmentComponent
syntax keyword dagHilt Application Service SavedStateHandle Activity Fragment View

" A function's name without a parenthesis is a parameter.
syntax match dagFunction /\<\(cat\|text\|size\|set\|fail\|get\|value\|values\|failure\|orElse\|has\|ok\)\>\ze *(/

" An at-name: an annotation or a scope of the language, or one that the document declares.
syntax match dagScope /@[A-Za-z][A-Za-z0-9_]*/
syntax match dagAnnotation /@\(Inject\|InstallIn\|TestInstallIn\|IntoSet\|ElementsIntoSet\|IntoMap\|StringKey\|IntKey\|Named\)\>/
syntax match dagHilt /@\(Singleton\|ActivityRetainedScoped\|ServiceScoped\|ViewModelScoped\|ActivityScoped\|FragmentScoped\|ViewScoped\)\>/

syntax match dagNumber /\<\(0\|[1-9][0-9]*\)\>/
syntax match dagNumber /-[1-9][0-9]*\>/

syntax match dagEscape /\\["\\]/ contained
syntax region dagString start=/"/ skip=/\\["\\]/ end=/"/ oneline contains=dagEscape

" A comment takes a whole line.
syntax match dagComment /^ *\/\/.*$/

highlight default link dagKeyword Keyword
highlight default link dagWord Conditional
highlight default link dagType Type
highlight default link dagHilt Identifier
highlight default link dagFunction Function
highlight default link dagScope PreProc
highlight default link dagAnnotation PreProc
highlight default link dagNumber Number
highlight default link dagEscape SpecialChar
highlight default link dagString String
highlight default link dagComment Comment

let b:current_syntax = 'dag'
