"""The module `kit` of the workshop, for scripts of other repositories, which import it from this folder."""
from workshop.kit import *
