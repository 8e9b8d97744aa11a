//! The words of each language: "Sentences are built from fixed pieces and the line's figures".

use super::Language;

/// The pieces of a language.
pub struct Words {
    /// Before the figures of the line, and behind them.
    pub line: &'static str,
    pub colon: &'static str,
    /// Where no line is named: by number, and first what stands before the number of a refusal
    /// that has no sentence of its own.
    pub alone: [&'static str; 19],
    /// The same behind a line that is named.
    pub there: [&'static str; 19],
    /// Behind the number of a refusal that has no sentence of its own.
    pub close: &'static str,
}

/// The pieces of a language.
pub fn words(language: Language) -> &'static Words {
    match language {
        Language::English => &ENGLISH,
        Language::French => &FRENCH,
    }
}

const ENGLISH: Words = Words {
    line: "Line ",
    colon: ": ",
    alone: [
        "The call was refused by number ",
        "The rule file is empty or longer than 8,192 bytes (refusal 1).",
        "A line is not 1 to 120 pairs of the digits 0-9 and a-f, closed by a line feed (refusal 2).",
        "The rule file does not end with a goal (refusal 3).",
        "A line is too short or too long, or has a token that may not stand where it stands (refusal 4).",
        "A number is outside its limits: rows 0 to 8, columns 1 to 4, key mask within the columns, lo at most hi, key pairs 1 to 4, from items 1 to 3, at most 6 with those of exists, selected columns 1 to 8, grouping columns 0 to 4, rounding step 1 to 1,000, aggregate 0 to 3, sign 0 or 1, at most 16 relations and 16 foreign keys (refusal 5).",
        "A line names a relation, from item or column that is not there or does not fit, or its columns do not pair with the parent's key or the other view (refusal 6).",
        "An aggregate stands outside the having and select of an aggregate view or inside another, a column outside every aggregate is not a grouping column, or an exists stands elsewhere than in where (refusal 7).",
        "A view could have more than 64 rows (refusal 8).",
        "A value could lie outside -2,147,483,648 to 2,147,483,647 (refusal 9).",
        "The tables allow more than 16,777,216 databases (refusal 10).",
        "The work area has fewer than 9,216 numbers (refusal 11).",
        "The instance buffer has fewer numbers than the tables have cells (refusal 12).",
        "The start is above the number of candidates (refusal 13).",
        "The answer frames are malformed, missing or surplus, or have other row counts than the rule file (refusal 14).",
        "No formula can be written: the file allows blanks, or its goal needs exists, an intersection, or an aggregate without grouping columns or over more than 6 combinations (refusal 15).",
        "The formula is longer than the buffer for it (refusal 16).",
        "The share of each turn is 0; it must be at least 1 (refusal 17).",
        "The queue has more than 8 entries, or an entry's text ends beyond the text that was lent (refusal 18).",
    ],
    there: [
        "refused by number ",
        "the rule file is empty or longer than 8,192 bytes (refusal 1).",
        "it is not 1 to 120 pairs of the digits 0-9 and a-f, closed by a line feed (refusal 2).",
        "its kind is unknown or out of order; the order is tables, foreign keys, views, one goal (refusal 3).",
        "it is too short or too long, or has a token that may not stand where it stands (refusal 4).",
        "a number is outside its limits: rows 0 to 8, columns 1 to 4, key mask within the columns, lo at most hi, key pairs 1 to 4, from items 1 to 3, at most 6 with those of exists, selected columns 1 to 8, grouping columns 0 to 4, rounding step 1 to 1,000, aggregate 0 to 3, sign 0 or 1, at most 16 relations and 16 foreign keys (refusal 5).",
        "it names a relation, from item or column that is not there or does not fit, or its columns do not pair with the parent's key or the other view (refusal 6).",
        "an aggregate stands outside the having and select of an aggregate view or inside another, a column outside every aggregate is not a grouping column, or an exists stands elsewhere than in where (refusal 7).",
        "this view could have more than 64 rows (refusal 8).",
        "a value could lie outside -2,147,483,648 to 2,147,483,647 (refusal 9).",
        "the tables allow more than 16,777,216 databases (refusal 10).",
        "the work area has fewer than 9,216 numbers (refusal 11).",
        "the instance buffer has fewer numbers than the tables have cells (refusal 12).",
        "the start is above the number of candidates (refusal 13).",
        "the answer frames are malformed, missing or surplus, or have other row counts than the rule file (refusal 14).",
        "no formula can be written: the file allows blanks, or its goal needs exists, an intersection, or an aggregate without grouping columns or over more than 6 combinations (refusal 15).",
        "the formula is longer than the buffer for it (refusal 16).",
        "the share of each turn is 0; it must be at least 1 (refusal 17).",
        "the queue has more than 8 entries, or an entry's text ends beyond the text that was lent (refusal 18).",
    ],
    close: ", which has no sentence of its own.",
};

/// French sets the space `\u{a0}` before a colon, and the narrow `\u{202f}` before a semicolon and
/// between thousands. No line breaks at either.
const FRENCH: Words = Words {
    line: "Ligne ",
    colon: "\u{a0}: ",
    alone: [
        "L’appel a été refusé par le numéro ",
        "Le fichier de règles est vide ou dépasse 8\u{202f}192 octets (refus 1).",
        "Une ligne n’est pas faite de 1 à 120 paires de chiffres 0-9 et a-f, suivies d’un saut de ligne (refus 2).",
        "Le fichier de règles ne se termine pas par un objectif (refus 3).",
        "Une ligne est trop courte ou trop longue, ou contient un code qui ne peut pas se trouver là où il est (refus 4).",
        "Un nombre est hors de ses limites\u{a0}: rangées 0 à 8, colonnes 1 à 4, masque de clé dans les colonnes, lo au plus égal à hi, paires de clé 1 à 4, éléments de from 1 à 3, au plus 6 avec ceux des exists, colonnes sélectionnées 1 à 8, colonnes de regroupement 0 à 4, pas d’arrondi 1 à 1\u{202f}000, agrégat 0 à 3, signe 0 ou 1, au plus 16 relations et 16 clés étrangères (refus 5).",
        "Une ligne nomme une relation, un élément de from ou une colonne qui n’existe pas ou ne convient pas, ou ses colonnes ne correspondent pas à la clé du parent ou à l’autre vue (refus 6).",
        "Un agrégat se trouve hors du having et du select d’une vue d’agrégation ou dans un autre, une colonne hors de tout agrégat n’est pas une colonne de regroupement, ou un exists se trouve ailleurs que dans where (refus 7).",
        "Une vue pourrait avoir plus de 64 rangées (refus 8).",
        "Une valeur pourrait sortir de l’intervalle de −2\u{202f}147\u{202f}483\u{202f}648 à 2\u{202f}147\u{202f}483\u{202f}647 (refus 9).",
        "Les tables permettent plus de 16\u{202f}777\u{202f}216 bases de données (refus 10).",
        "La zone de travail a moins de 9\u{202f}216 nombres (refus 11).",
        "Le tampon d’instance a moins de nombres que les tables n’ont de cellules (refus 12).",
        "Le départ dépasse le nombre de candidats (refus 13).",
        "Les trames de réponse sont mal formées, manquantes ou en trop, ou n’ont pas les nombres de rangées du fichier de règles (refus 14).",
        "Aucune formule ne peut être écrite\u{a0}: le fichier permet des cellules vides, ou son objectif demande exists, une intersection, ou un agrégat sans colonne de regroupement ou sur plus de 6 combinaisons (refus 15).",
        "La formule est plus longue que le tampon prévu pour elle (refus 16).",
        "La part de chaque tour est 0\u{202f}; elle doit être d’au moins 1 (refus 17).",
        "La file a plus de 8 entrées, ou le texte d’une entrée finit au-delà du texte prêté (refus 18).",
    ],
    there: [
        "refusé par le numéro ",
        "le fichier de règles est vide ou dépasse 8\u{202f}192 octets (refus 1).",
        "elle n’est pas faite de 1 à 120 paires de chiffres 0-9 et a-f, suivies d’un saut de ligne (refus 2).",
        "son type est inconnu ou n’est pas à sa place\u{202f}; l’ordre est tables, clés étrangères, vues, un objectif (refus 3).",
        "elle est trop courte ou trop longue, ou contient un code qui ne peut pas se trouver là où il est (refus 4).",
        "un nombre est hors de ses limites\u{a0}: rangées 0 à 8, colonnes 1 à 4, masque de clé dans les colonnes, lo au plus égal à hi, paires de clé 1 à 4, éléments de from 1 à 3, au plus 6 avec ceux des exists, colonnes sélectionnées 1 à 8, colonnes de regroupement 0 à 4, pas d’arrondi 1 à 1\u{202f}000, agrégat 0 à 3, signe 0 ou 1, au plus 16 relations et 16 clés étrangères (refus 5).",
        "elle nomme une relation, un élément de from ou une colonne qui n’existe pas ou ne convient pas, ou ses colonnes ne correspondent pas à la clé du parent ou à l’autre vue (refus 6).",
        "un agrégat se trouve hors du having et du select d’une vue d’agrégation ou dans un autre, une colonne hors de tout agrégat n’est pas une colonne de regroupement, ou un exists se trouve ailleurs que dans where (refus 7).",
        "cette vue pourrait avoir plus de 64 rangées (refus 8).",
        "une valeur pourrait sortir de l’intervalle de −2\u{202f}147\u{202f}483\u{202f}648 à 2\u{202f}147\u{202f}483\u{202f}647 (refus 9).",
        "les tables permettent plus de 16\u{202f}777\u{202f}216 bases de données (refus 10).",
        "la zone de travail a moins de 9\u{202f}216 nombres (refus 11).",
        "le tampon d’instance a moins de nombres que les tables n’ont de cellules (refus 12).",
        "le départ dépasse le nombre de candidats (refus 13).",
        "les trames de réponse sont mal formées, manquantes ou en trop, ou n’ont pas les nombres de rangées du fichier de règles (refus 14).",
        "aucune formule ne peut être écrite\u{a0}: le fichier permet des cellules vides, ou son objectif demande exists, une intersection, ou un agrégat sans colonne de regroupement ou sur plus de 6 combinaisons (refus 15).",
        "la formule est plus longue que le tampon prévu pour elle (refus 16).",
        "la part de chaque tour est 0\u{202f}; elle doit être d’au moins 1 (refus 17).",
        "la file a plus de 8 entrées, ou le texte d’une entrée finit au-delà du texte prêté (refus 18).",
    ],
    close: ", qui n’a pas sa propre phrase.",
};
