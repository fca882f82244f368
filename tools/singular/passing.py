"""Statements of Singular that are passed over: they can't touch the ring, the matrix or the ideal.

Singular hands values to a procedure and not the objects, so a call changes nothing but what it is told to keep. Passed
over are declarations of other objects, what is done to these later, calls whose values are printed, and loops of these;
the calls are those that are listed here, and no word may stand in them that wasn't declared."""

TYPES = {'list', 'fan', 'cone', 'int', 'bigint', 'intvec', 'string', 'permutation', 'number', 'poly'}

CALLS = set('''
    afaces isAface fullDimImages minimalAfaces orbitCones GITcone GITfan GITfanFromOrbitCones GITfanParallel hashToCone
    hashesToFan bigintToBinary gkzFan movingCone G25Action findOrbits permutationFromIntvec permutationToIntvec
    printPermutation applyPermutationToIntvec evaluateProduct groupActionOnQImage groupActionOnHashes computeAfaceOrbits
    minimalAfaceOrbits orbitConeOrbits minimalOrbitConeOrbits intersectOrbitsWithMovingCone GITfanSymmetric
    GITfanParallelSymmetric gitCone orbitConesOld int2face provedFan gitfanInput
    coneViaPoints coneViaInequalities canonicalizeCone convexIntersection rays facets spanOfCone dimension
    ambientDimension linealityDimension relativeInteriorPoint containsInSupport containsPositiveVector isFullSpace
    emptyFan fullFan fanViaCones insertCone getCone fVector nmaxcones numberOfConesOfDimension isComplete isSimplicial isPure
    size nrows ncols transpose print apply list intvec int bigint string dim degree deg minor rank det gcd
    setcores getcores nameof typeof'''.split())


class Passing:
    """Passes over statements of tokens, and knows the names that they declare."""

    def __init__(self, tokens):
        self.tokens = tokens
        self.declared = set()

    def statement(self, fixed):
        """Passes over a statement, up to its end. `fixed` are the names of the ring, its variables, the matrix and the ideal."""
        word = self.tokens.next().text
        if word == 'for':
            self.loop(fixed)
        elif word in TYPES | {'bigintmat'}:
            self.declaration(fixed)
            self.tokens.needs(';')
        else:
            self.action(fixed)
            self.tokens.needs(';')

    def loop(self, fixed):
        """Passes over a loop whose body stands in braces."""
        self.tokens.take()
        self.tokens.needs('(')
        if self.tokens.next().text in TYPES:
            self.declaration(fixed)
        else:
            self.action(fixed)
        self.tokens.needs(';')
        self.value(fixed)
        self.tokens.needs(';')
        self.action(fixed)
        self.tokens.needs(')')
        self.tokens.needs('{')
        while not self.tokens.takes('}'):
            self.statement(fixed)

    def declaration(self, fixed):
        """Passes over the declaration of an object, with its value or without."""
        self.tokens.take()
        token = self.tokens.next()
        if token.kind != 'word' or token.text in fixed | CALLS:
            self.tokens.refuse()
        self.tokens.take()
        self.indices(fixed)
        self.declared.add(token.text)
        if self.tokens.takes('='):
            self.value(fixed)

    def action(self, fixed):
        """Passes over a call or a value that is printed, or over what is done to an object that was passed over."""
        word = self.tokens.next().text
        if word in CALLS:
            self.value(fixed)
            return
        if word not in self.declared:
            self.tokens.refuse()
        self.tokens.take()
        self.indices(fixed)
        if self.tokens.takes('='):
            self.value(fixed)
        elif self.tokens.takes('+'):
            self.tokens.needs('+')

    def indices(self, fixed):
        """Passes over what stands in square brackets, if there are any."""
        while self.tokens.takes('['):
            self.value(fixed)
            self.tokens.needs(']')

    def value(self, fixed):
        """Passes over a value, up to the sign that ends it. Each word of it is a call or was declared."""
        depth = 0
        while True:
            token = self.tokens.next()
            if token.text in (';', ')', ']', '{', '}') and token.kind == 'sign' and depth == 0:
                return
            if token.kind == 'word' and token.text not in fixed | self.declared | CALLS:
                self.tokens.refuse()
            if token.text == ';' or token.text == '=' and not self.compares():
                self.tokens.refuse()
            if token.kind == 'sign':
                depth += (token.text in ('(', '[')) - (token.text in (')', ']'))
            self.tokens.take()

    def compares(self):
        """Whether the next sign, `=`, stands beside another of a comparison."""
        near = [self.tokens.tokens[self.tokens.place + step].text for step in (-1, 1)]
        return near[0] in ('<', '>', '=') or near[1] == '='
