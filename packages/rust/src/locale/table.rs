//! The locales, their names and their data.
//!
//! Written by packages/rust/write_locales.py from crates/num_format_cldr/specs; do not edit.

use super::{row, Row};
use crate::grouping::Grouping;

/// A locale of the Unicode Common Locale Data Repository. Implements [`Format`](crate::Format).
///
/// Each variant has the name of its locale, with `_` for `-`, and that of `as` is `as_`. They are in the
/// order of their names. Beside each is one million as it is printed under it.
///
/// ```
/// use num_format::{Grouping, Locale};
///
/// let locale = Locale::from_name("de-CH")?;
/// assert_eq!(locale, Locale::de_CH);
/// assert_eq!(locale.name(), "de-CH");
/// assert_eq!(locale.separator(), "’");
/// assert_eq!(locale.grouping(), Grouping::Standard);
/// # Ok::<(), num_format::Error>(())
/// ```
#[derive(Clone, Copy, Debug, PartialEq, Eq, PartialOrd, Ord, Hash)]
#[cfg_attr(feature = "with-serde", derive(serde::Serialize, serde::Deserialize))]
#[allow(non_camel_case_types)]
pub enum Locale {
    /// `af`: 1&#xa0;000&#xa0;000
    af,
    /// `af-NA`: 1&#xa0;000&#xa0;000
    af_NA,
    /// `agq`: 1&#xa0;000&#xa0;000
    agq,
    /// `ak`: 1,000,000
    ak,
    /// `am`: 1,000,000
    am,
    /// `ar`: 1٬000٬000
    ar,
    /// `ar-AE`: 1٬000٬000
    ar_AE,
    /// `ar-BH`: 1٬000٬000
    ar_BH,
    /// `ar-DJ`: 1٬000٬000
    ar_DJ,
    /// `ar-DZ`: 1.000.000
    ar_DZ,
    /// `ar-EG`: 1٬000٬000
    ar_EG,
    /// `ar-EH`: 1,000,000
    ar_EH,
    /// `ar-ER`: 1٬000٬000
    ar_ER,
    /// `ar-IL`: 1٬000٬000
    ar_IL,
    /// `ar-IQ`: 1٬000٬000
    ar_IQ,
    /// `ar-JO`: 1٬000٬000
    ar_JO,
    /// `ar-KM`: 1٬000٬000
    ar_KM,
    /// `ar-KW`: 1٬000٬000
    ar_KW,
    /// `ar-LB`: 1٬000٬000
    ar_LB,
    /// `ar-LY`: 1.000.000
    ar_LY,
    /// `ar-MA`: 1.000.000
    ar_MA,
    /// `ar-MR`: 1٬000٬000
    ar_MR,
    /// `ar-OM`: 1٬000٬000
    ar_OM,
    /// `ar-PS`: 1٬000٬000
    ar_PS,
    /// `ar-QA`: 1٬000٬000
    ar_QA,
    /// `ar-SA`: 1٬000٬000
    ar_SA,
    /// `ar-SD`: 1٬000٬000
    ar_SD,
    /// `ar-SO`: 1٬000٬000
    ar_SO,
    /// `ar-SS`: 1٬000٬000
    ar_SS,
    /// `ar-SY`: 1٬000٬000
    ar_SY,
    /// `ar-TD`: 1٬000٬000
    ar_TD,
    /// `ar-TN`: 1.000.000
    ar_TN,
    /// `ar-YE`: 1٬000٬000
    ar_YE,
    /// `as`: 10,00,000
    as_,
    /// `asa`: 1,000,000
    asa,
    /// `ast`: 1.000.000
    ast,
    /// `az`: 1.000.000
    az,
    /// `az-Cyrl`: 1.000.000
    az_Cyrl,
    /// `az-Latn`: 1.000.000
    az_Latn,
    /// `bas`: 1&#xa0;000&#xa0;000
    bas,
    /// `be`: 1&#xa0;000&#xa0;000
    be,
    /// `bem`: 1,000,000
    bem,
    /// `bez`: 1,000,000
    bez,
    /// `bg`: 1&#xa0;000&#xa0;000
    bg,
    /// `bm`: 1,000,000
    bm,
    /// `bn`: 10,00,000
    bn,
    /// `bn-IN`: 10,00,000
    bn_IN,
    /// `bo`: 1,000,000
    bo,
    /// `bo-IN`: 1,000,000
    bo_IN,
    /// `br`: 1&#xa0;000&#xa0;000
    br,
    /// `brx`: 10,00,000
    brx,
    /// `bs`: 1.000.000
    bs,
    /// `bs-Cyrl`: 1.000.000
    bs_Cyrl,
    /// `bs-Latn`: 1.000.000
    bs_Latn,
    /// `ca`: 1.000.000
    ca,
    /// `ca-AD`: 1.000.000
    ca_AD,
    /// `ca-ES-VALENCIA`: 1.000.000
    ca_ES_VALENCIA,
    /// `ca-FR`: 1.000.000
    ca_FR,
    /// `ca-IT`: 1.000.000
    ca_IT,
    /// `ccp`: 10,00,000
    ccp,
    /// `ccp-IN`: 10,00,000
    ccp_IN,
    /// `ce`: 1,000,000
    ce,
    /// `ceb`: 1,000,000
    ceb,
    /// `cgg`: 1,000,000
    cgg,
    /// `chr`: 1,000,000
    chr,
    /// `ckb`: 1٬000٬000
    ckb,
    /// `ckb-IR`: 1٬000٬000
    ckb_IR,
    /// `cs`: 1&#xa0;000&#xa0;000
    cs,
    /// `cu`: 1,000,000
    cu,
    /// `cy`: 1,000,000
    cy,
    /// `da`: 1.000.000
    da,
    /// `da-GL`: 1.000.000
    da_GL,
    /// `dav`: 1,000,000
    dav,
    /// `de`: 1.000.000
    de,
    /// `de-AT`: 1&#xa0;000&#xa0;000
    de_AT,
    /// `de-BE`: 1.000.000
    de_BE,
    /// `de-CH`: 1’000’000
    de_CH,
    /// `de-IT`: 1.000.000
    de_IT,
    /// `de-LI`: 1’000’000
    de_LI,
    /// `de-LU`: 1.000.000
    de_LU,
    /// `dje`: 1&#xa0;000&#xa0;000
    dje,
    /// `dsb`: 1.000.000
    dsb,
    /// `dua`: 1&#xa0;000&#xa0;000
    dua,
    /// `dyo`: 1&#xa0;000&#xa0;000
    dyo,
    /// `dz`: 10,00,000
    dz,
    /// `ebu`: 1,000,000
    ebu,
    /// `ee`: 1,000,000
    ee,
    /// `ee-TG`: 1,000,000
    ee_TG,
    /// `el`: 1.000.000
    el,
    /// `el-CY`: 1.000.000
    el_CY,
    /// `en`: 1,000,000
    en,
    /// `en-001`: 1,000,000
    en_001,
    /// `en-150`: 1,000,000
    en_150,
    /// `en-AE`: 1,000,000
    en_AE,
    /// `en-AG`: 1,000,000
    en_AG,
    /// `en-AI`: 1,000,000
    en_AI,
    /// `en-AS`: 1,000,000
    en_AS,
    /// `en-AT`: 1.000.000
    en_AT,
    /// `en-AU`: 1,000,000
    en_AU,
    /// `en-BB`: 1,000,000
    en_BB,
    /// `en-BE`: 1.000.000
    en_BE,
    /// `en-BI`: 1,000,000
    en_BI,
    /// `en-BM`: 1,000,000
    en_BM,
    /// `en-BS`: 1,000,000
    en_BS,
    /// `en-BW`: 1,000,000
    en_BW,
    /// `en-BZ`: 1,000,000
    en_BZ,
    /// `en-CA`: 1,000,000
    en_CA,
    /// `en-CC`: 1,000,000
    en_CC,
    /// `en-CH`: 1’000’000
    en_CH,
    /// `en-CK`: 1,000,000
    en_CK,
    /// `en-CM`: 1,000,000
    en_CM,
    /// `en-CX`: 1,000,000
    en_CX,
    /// `en-CY`: 1,000,000
    en_CY,
    /// `en-DE`: 1.000.000
    en_DE,
    /// `en-DG`: 1,000,000
    en_DG,
    /// `en-DK`: 1.000.000
    en_DK,
    /// `en-DM`: 1,000,000
    en_DM,
    /// `en-ER`: 1,000,000
    en_ER,
    /// `en-FI`: 1&#xa0;000&#xa0;000
    en_FI,
    /// `en-FJ`: 1,000,000
    en_FJ,
    /// `en-FK`: 1,000,000
    en_FK,
    /// `en-FM`: 1,000,000
    en_FM,
    /// `en-GB`: 1,000,000
    en_GB,
    /// `en-GD`: 1,000,000
    en_GD,
    /// `en-GG`: 1,000,000
    en_GG,
    /// `en-GH`: 1,000,000
    en_GH,
    /// `en-GI`: 1,000,000
    en_GI,
    /// `en-GM`: 1,000,000
    en_GM,
    /// `en-GU`: 1,000,000
    en_GU,
    /// `en-GY`: 1,000,000
    en_GY,
    /// `en-HK`: 1,000,000
    en_HK,
    /// `en-IE`: 1,000,000
    en_IE,
    /// `en-IL`: 1,000,000
    en_IL,
    /// `en-IM`: 1,000,000
    en_IM,
    /// `en-IN`: 10,00,000
    en_IN,
    /// `en-IO`: 1,000,000
    en_IO,
    /// `en-JE`: 1,000,000
    en_JE,
    /// `en-JM`: 1,000,000
    en_JM,
    /// `en-KE`: 1,000,000
    en_KE,
    /// `en-KI`: 1,000,000
    en_KI,
    /// `en-KN`: 1,000,000
    en_KN,
    /// `en-KY`: 1,000,000
    en_KY,
    /// `en-LC`: 1,000,000
    en_LC,
    /// `en-LR`: 1,000,000
    en_LR,
    /// `en-LS`: 1,000,000
    en_LS,
    /// `en-MG`: 1,000,000
    en_MG,
    /// `en-MH`: 1,000,000
    en_MH,
    /// `en-MO`: 1,000,000
    en_MO,
    /// `en-MP`: 1,000,000
    en_MP,
    /// `en-MS`: 1,000,000
    en_MS,
    /// `en-MT`: 1,000,000
    en_MT,
    /// `en-MU`: 1,000,000
    en_MU,
    /// `en-MW`: 1,000,000
    en_MW,
    /// `en-MY`: 1,000,000
    en_MY,
    /// `en-NA`: 1,000,000
    en_NA,
    /// `en-NF`: 1,000,000
    en_NF,
    /// `en-NG`: 1,000,000
    en_NG,
    /// `en-NL`: 1.000.000
    en_NL,
    /// `en-NR`: 1,000,000
    en_NR,
    /// `en-NU`: 1,000,000
    en_NU,
    /// `en-NZ`: 1,000,000
    en_NZ,
    /// `en-PG`: 1,000,000
    en_PG,
    /// `en-PH`: 1,000,000
    en_PH,
    /// `en-PK`: 1,000,000
    en_PK,
    /// `en-PN`: 1,000,000
    en_PN,
    /// `en-PR`: 1,000,000
    en_PR,
    /// `en-PW`: 1,000,000
    en_PW,
    /// `en-RW`: 1,000,000
    en_RW,
    /// `en-SB`: 1,000,000
    en_SB,
    /// `en-SC`: 1,000,000
    en_SC,
    /// `en-SD`: 1,000,000
    en_SD,
    /// `en-SE`: 1&#xa0;000&#xa0;000
    en_SE,
    /// `en-SG`: 1,000,000
    en_SG,
    /// `en-SH`: 1,000,000
    en_SH,
    /// `en-SI`: 1.000.000
    en_SI,
    /// `en-SL`: 1,000,000
    en_SL,
    /// `en-SS`: 1,000,000
    en_SS,
    /// `en-SX`: 1,000,000
    en_SX,
    /// `en-SZ`: 1,000,000
    en_SZ,
    /// `en-TC`: 1,000,000
    en_TC,
    /// `en-TK`: 1,000,000
    en_TK,
    /// `en-TO`: 1,000,000
    en_TO,
    /// `en-TT`: 1,000,000
    en_TT,
    /// `en-TV`: 1,000,000
    en_TV,
    /// `en-TZ`: 1,000,000
    en_TZ,
    /// `en-UG`: 1,000,000
    en_UG,
    /// `en-UM`: 1,000,000
    en_UM,
    /// `en-US-POSIX`: 1000000
    en_US_POSIX,
    /// `en-VC`: 1,000,000
    en_VC,
    /// `en-VG`: 1,000,000
    en_VG,
    /// `en-VI`: 1,000,000
    en_VI,
    /// `en-VU`: 1,000,000
    en_VU,
    /// `en-WS`: 1,000,000
    en_WS,
    /// `en-ZA`: 1&#xa0;000&#xa0;000
    en_ZA,
    /// `en-ZM`: 1,000,000
    en_ZM,
    /// `en-ZW`: 1,000,000
    en_ZW,
    /// `eo`: 1&#xa0;000&#xa0;000
    eo,
    /// `es`: 1.000.000
    es,
    /// `es-419`: 1,000,000
    es_419,
    /// `es-AR`: 1.000.000
    es_AR,
    /// `es-BO`: 1.000.000
    es_BO,
    /// `es-BR`: 1,000,000
    es_BR,
    /// `es-BZ`: 1,000,000
    es_BZ,
    /// `es-CL`: 1.000.000
    es_CL,
    /// `es-CO`: 1.000.000
    es_CO,
    /// `es-CR`: 1&#xa0;000&#xa0;000
    es_CR,
    /// `es-CU`: 1,000,000
    es_CU,
    /// `es-DO`: 1,000,000
    es_DO,
    /// `es-EA`: 1.000.000
    es_EA,
    /// `es-EC`: 1.000.000
    es_EC,
    /// `es-GQ`: 1.000.000
    es_GQ,
    /// `es-GT`: 1,000,000
    es_GT,
    /// `es-HN`: 1,000,000
    es_HN,
    /// `es-IC`: 1.000.000
    es_IC,
    /// `es-MX`: 1,000,000
    es_MX,
    /// `es-NI`: 1,000,000
    es_NI,
    /// `es-PA`: 1,000,000
    es_PA,
    /// `es-PE`: 1,000,000
    es_PE,
    /// `es-PH`: 1.000.000
    es_PH,
    /// `es-PR`: 1,000,000
    es_PR,
    /// `es-PY`: 1.000.000
    es_PY,
    /// `es-SV`: 1,000,000
    es_SV,
    /// `es-US`: 1,000,000
    es_US,
    /// `es-UY`: 1.000.000
    es_UY,
    /// `es-VE`: 1.000.000
    es_VE,
    /// `et`: 1&#xa0;000&#xa0;000
    et,
    /// `eu`: 1.000.000
    eu,
    /// `ewo`: 1&#xa0;000&#xa0;000
    ewo,
    /// `fa`: 1٬000٬000
    fa,
    /// `fa-AF`: 1٬000٬000
    fa_AF,
    /// `ff`: 1&#xa0;000&#xa0;000
    ff,
    /// `ff-Latn`: 1&#xa0;000&#xa0;000
    ff_Latn,
    /// `ff-Latn-BF`: 1&#xa0;000&#xa0;000
    ff_Latn_BF,
    /// `ff-Latn-CM`: 1&#xa0;000&#xa0;000
    ff_Latn_CM,
    /// `ff-Latn-GH`: 1&#xa0;000&#xa0;000
    ff_Latn_GH,
    /// `ff-Latn-GM`: 1&#xa0;000&#xa0;000
    ff_Latn_GM,
    /// `ff-Latn-GN`: 1&#xa0;000&#xa0;000
    ff_Latn_GN,
    /// `ff-Latn-GW`: 1&#xa0;000&#xa0;000
    ff_Latn_GW,
    /// `ff-Latn-LR`: 1&#xa0;000&#xa0;000
    ff_Latn_LR,
    /// `ff-Latn-MR`: 1&#xa0;000&#xa0;000
    ff_Latn_MR,
    /// `ff-Latn-NE`: 1&#xa0;000&#xa0;000
    ff_Latn_NE,
    /// `ff-Latn-NG`: 1&#xa0;000&#xa0;000
    ff_Latn_NG,
    /// `ff-Latn-SL`: 1&#xa0;000&#xa0;000
    ff_Latn_SL,
    /// `fi`: 1&#xa0;000&#xa0;000
    fi,
    /// `fil`: 1,000,000
    fil,
    /// `fo`: 1.000.000
    fo,
    /// `fo-DK`: 1.000.000
    fo_DK,
    /// `fr`: 1&#x202f;000&#x202f;000
    fr,
    /// `fr-BE`: 1&#x202f;000&#x202f;000
    fr_BE,
    /// `fr-BF`: 1&#x202f;000&#x202f;000
    fr_BF,
    /// `fr-BI`: 1&#x202f;000&#x202f;000
    fr_BI,
    /// `fr-BJ`: 1&#x202f;000&#x202f;000
    fr_BJ,
    /// `fr-BL`: 1&#x202f;000&#x202f;000
    fr_BL,
    /// `fr-CA`: 1&#xa0;000&#xa0;000
    fr_CA,
    /// `fr-CD`: 1&#x202f;000&#x202f;000
    fr_CD,
    /// `fr-CF`: 1&#x202f;000&#x202f;000
    fr_CF,
    /// `fr-CG`: 1&#x202f;000&#x202f;000
    fr_CG,
    /// `fr-CH`: 1&#x202f;000&#x202f;000
    fr_CH,
    /// `fr-CI`: 1&#x202f;000&#x202f;000
    fr_CI,
    /// `fr-CM`: 1&#x202f;000&#x202f;000
    fr_CM,
    /// `fr-DJ`: 1&#x202f;000&#x202f;000
    fr_DJ,
    /// `fr-DZ`: 1&#x202f;000&#x202f;000
    fr_DZ,
    /// `fr-GA`: 1&#x202f;000&#x202f;000
    fr_GA,
    /// `fr-GF`: 1&#x202f;000&#x202f;000
    fr_GF,
    /// `fr-GN`: 1&#x202f;000&#x202f;000
    fr_GN,
    /// `fr-GP`: 1&#x202f;000&#x202f;000
    fr_GP,
    /// `fr-GQ`: 1&#x202f;000&#x202f;000
    fr_GQ,
    /// `fr-HT`: 1&#x202f;000&#x202f;000
    fr_HT,
    /// `fr-KM`: 1&#x202f;000&#x202f;000
    fr_KM,
    /// `fr-LU`: 1.000.000
    fr_LU,
    /// `fr-MA`: 1.000.000
    fr_MA,
    /// `fr-MC`: 1&#x202f;000&#x202f;000
    fr_MC,
    /// `fr-MF`: 1&#x202f;000&#x202f;000
    fr_MF,
    /// `fr-MG`: 1&#x202f;000&#x202f;000
    fr_MG,
    /// `fr-ML`: 1&#x202f;000&#x202f;000
    fr_ML,
    /// `fr-MQ`: 1&#x202f;000&#x202f;000
    fr_MQ,
    /// `fr-MR`: 1&#x202f;000&#x202f;000
    fr_MR,
    /// `fr-MU`: 1&#x202f;000&#x202f;000
    fr_MU,
    /// `fr-NC`: 1&#x202f;000&#x202f;000
    fr_NC,
    /// `fr-NE`: 1&#x202f;000&#x202f;000
    fr_NE,
    /// `fr-PF`: 1&#x202f;000&#x202f;000
    fr_PF,
    /// `fr-PM`: 1&#x202f;000&#x202f;000
    fr_PM,
    /// `fr-RE`: 1&#x202f;000&#x202f;000
    fr_RE,
    /// `fr-RW`: 1&#x202f;000&#x202f;000
    fr_RW,
    /// `fr-SC`: 1&#x202f;000&#x202f;000
    fr_SC,
    /// `fr-SN`: 1&#x202f;000&#x202f;000
    fr_SN,
    /// `fr-SY`: 1&#x202f;000&#x202f;000
    fr_SY,
    /// `fr-TD`: 1&#x202f;000&#x202f;000
    fr_TD,
    /// `fr-TG`: 1&#x202f;000&#x202f;000
    fr_TG,
    /// `fr-TN`: 1&#x202f;000&#x202f;000
    fr_TN,
    /// `fr-VU`: 1&#x202f;000&#x202f;000
    fr_VU,
    /// `fr-WF`: 1&#x202f;000&#x202f;000
    fr_WF,
    /// `fr-YT`: 1&#x202f;000&#x202f;000
    fr_YT,
    /// `fur`: 1.000.000
    fur,
    /// `fy`: 1.000.000
    fy,
    /// `ga`: 1,000,000
    ga,
    /// `ga-GB`: 1,000,000
    ga_GB,
    /// `gd`: 1,000,000
    gd,
    /// `gl`: 1.000.000
    gl,
    /// `gsw`: 1’000’000
    gsw,
    /// `gsw-FR`: 1’000’000
    gsw_FR,
    /// `gsw-LI`: 1’000’000
    gsw_LI,
    /// `gu`: 10,00,000
    gu,
    /// `guz`: 1,000,000
    guz,
    /// `gv`: 1,000,000
    gv,
    /// `ha`: 1,000,000
    ha,
    /// `ha-GH`: 1,000,000
    ha_GH,
    /// `ha-NE`: 1,000,000
    ha_NE,
    /// `haw`: 1,000,000
    haw,
    /// `he`: 1,000,000
    he,
    /// `hi`: 10,00,000
    hi,
    /// `hr`: 1.000.000
    hr,
    /// `hr-BA`: 1.000.000
    hr_BA,
    /// `hsb`: 1.000.000
    hsb,
    /// `hu`: 1&#xa0;000&#xa0;000
    hu,
    /// `hy`: 1&#xa0;000&#xa0;000
    hy,
    /// `ia`: 1.000.000
    ia,
    /// `id`: 1.000.000
    id,
    /// `ig`: 1,000,000
    ig,
    /// `ii`: 1,000,000
    ii,
    /// `is`: 1.000.000
    is,
    /// `it`: 1.000.000
    it,
    /// `it-CH`: 1’000’000
    it_CH,
    /// `it-SM`: 1.000.000
    it_SM,
    /// `it-VA`: 1.000.000
    it_VA,
    /// `ja`: 1,000,000
    ja,
    /// `jgo`: 1.000.000
    jgo,
    /// `jmc`: 1,000,000
    jmc,
    /// `jv`: 1.000.000
    jv,
    /// `ka`: 1&#xa0;000&#xa0;000
    ka,
    /// `kab`: 1&#xa0;000&#xa0;000
    kab,
    /// `kam`: 1,000,000
    kam,
    /// `kde`: 1,000,000
    kde,
    /// `kea`: 1&#xa0;000&#xa0;000
    kea,
    /// `khq`: 1&#xa0;000&#xa0;000
    khq,
    /// `ki`: 1,000,000
    ki,
    /// `kk`: 1&#xa0;000&#xa0;000
    kk,
    /// `kkj`: 1.000.000
    kkj,
    /// `kl`: 1.000.000
    kl,
    /// `kln`: 1,000,000
    kln,
    /// `km`: 1.000.000
    km,
    /// `kn`: 1,000,000
    kn,
    /// `ko`: 1,000,000
    ko,
    /// `ko-KP`: 1,000,000
    ko_KP,
    /// `kok`: 1,000,000
    kok,
    /// `ks`: 10٬00٬000
    ks,
    /// `ksb`: 1,000,000
    ksb,
    /// `ksf`: 1&#xa0;000&#xa0;000
    ksf,
    /// `ksh`: 1&#xa0;000&#xa0;000
    ksh,
    /// `ku`: 1.000.000
    ku,
    /// `kw`: 1,000,000
    kw,
    /// `ky`: 1&#xa0;000&#xa0;000
    ky,
    /// `lag`: 1,000,000
    lag,
    /// `lb`: 1.000.000
    lb,
    /// `lg`: 1,000,000
    lg,
    /// `lkt`: 1,000,000
    lkt,
    /// `ln`: 1.000.000
    ln,
    /// `ln-AO`: 1.000.000
    ln_AO,
    /// `ln-CF`: 1.000.000
    ln_CF,
    /// `ln-CG`: 1.000.000
    ln_CG,
    /// `lo`: 1.000.000
    lo,
    /// `lrc`: 1٬000٬000
    lrc,
    /// `lrc-IQ`: 1٬000٬000
    lrc_IQ,
    /// `lt`: 1&#xa0;000&#xa0;000
    lt,
    /// `lu`: 1.000.000
    lu,
    /// `luo`: 1,000,000
    luo,
    /// `luy`: 1,000,000
    luy,
    /// `lv`: 1&#xa0;000&#xa0;000
    lv,
    /// `mas`: 1,000,000
    mas,
    /// `mas-TZ`: 1,000,000
    mas_TZ,
    /// `mer`: 1,000,000
    mer,
    /// `mfe`: 1&#xa0;000&#xa0;000
    mfe,
    /// `mg`: 1,000,000
    mg,
    /// `mgh`: 1.000.000
    mgh,
    /// `mgo`: 1,000,000
    mgo,
    /// `mi`: 1,000,000
    mi,
    /// `mk`: 1.000.000
    mk,
    /// `ml`: 10,00,000
    ml,
    /// `mn`: 1,000,000
    mn,
    /// `mr`: 10,00,000
    mr,
    /// `ms`: 1,000,000
    ms,
    /// `ms-BN`: 1.000.000
    ms_BN,
    /// `ms-SG`: 1,000,000
    ms_SG,
    /// `mt`: 1,000,000
    mt,
    /// `mua`: 1.000.000
    mua,
    /// `my`: 1,000,000
    my,
    /// `mzn`: 1٬000٬000
    mzn,
    /// `naq`: 1,000,000
    naq,
    /// `nb`: 1&#xa0;000&#xa0;000
    nb,
    /// `nb-SJ`: 1&#xa0;000&#xa0;000
    nb_SJ,
    /// `nd`: 1,000,000
    nd,
    /// `nds`: 1,000,000
    nds,
    /// `nds-NL`: 1,000,000
    nds_NL,
    /// `ne`: 10,00,000
    ne,
    /// `ne-IN`: 10,00,000
    ne_IN,
    /// `nl`: 1.000.000
    nl,
    /// `nl-AW`: 1.000.000
    nl_AW,
    /// `nl-BE`: 1.000.000
    nl_BE,
    /// `nl-BQ`: 1.000.000
    nl_BQ,
    /// `nl-CW`: 1.000.000
    nl_CW,
    /// `nl-SR`: 1.000.000
    nl_SR,
    /// `nl-SX`: 1.000.000
    nl_SX,
    /// `nmg`: 1&#xa0;000&#xa0;000
    nmg,
    /// `nn`: 1&#xa0;000&#xa0;000
    nn,
    /// `nnh`: 1.000.000
    nnh,
    /// `nus`: 1,000,000
    nus,
    /// `nyn`: 1,000,000
    nyn,
    /// `om`: 1,000,000
    om,
    /// `om-KE`: 1,000,000
    om_KE,
    /// `or`: 10,00,000
    or,
    /// `os`: 1&#xa0;000&#xa0;000
    os,
    /// `os-RU`: 1&#xa0;000&#xa0;000
    os_RU,
    /// `pa`: 10,00,000
    pa,
    /// `pa-Arab`: 1٬000٬000
    pa_Arab,
    /// `pa-Guru`: 10,00,000
    pa_Guru,
    /// `pl`: 1&#xa0;000&#xa0;000
    pl,
    /// `prg`: 1,000,000
    prg,
    /// `ps`: 1٬000٬000
    ps,
    /// `ps-PK`: 1٬000٬000
    ps_PK,
    /// `pt`: 1.000.000
    pt,
    /// `pt-AO`: 1&#xa0;000&#xa0;000
    pt_AO,
    /// `pt-CH`: 1&#xa0;000&#xa0;000
    pt_CH,
    /// `pt-CV`: 1&#xa0;000&#xa0;000
    pt_CV,
    /// `pt-GQ`: 1&#xa0;000&#xa0;000
    pt_GQ,
    /// `pt-GW`: 1&#xa0;000&#xa0;000
    pt_GW,
    /// `pt-LU`: 1&#xa0;000&#xa0;000
    pt_LU,
    /// `pt-MO`: 1&#xa0;000&#xa0;000
    pt_MO,
    /// `pt-MZ`: 1&#xa0;000&#xa0;000
    pt_MZ,
    /// `pt-PT`: 1&#xa0;000&#xa0;000
    pt_PT,
    /// `pt-ST`: 1&#xa0;000&#xa0;000
    pt_ST,
    /// `pt-TL`: 1&#xa0;000&#xa0;000
    pt_TL,
    /// `qu`: 1,000,000
    qu,
    /// `qu-BO`: 1.000.000
    qu_BO,
    /// `qu-EC`: 1,000,000
    qu_EC,
    /// `rm`: 1’000’000
    rm,
    /// `rn`: 1.000.000
    rn,
    /// `ro`: 1.000.000
    ro,
    /// `ro-MD`: 1.000.000
    ro_MD,
    /// `rof`: 1,000,000
    rof,
    /// `root`: 1,000,000
    root,
    /// `ru`: 1&#xa0;000&#xa0;000
    ru,
    /// `ru-BY`: 1&#xa0;000&#xa0;000
    ru_BY,
    /// `ru-KG`: 1&#xa0;000&#xa0;000
    ru_KG,
    /// `ru-KZ`: 1&#xa0;000&#xa0;000
    ru_KZ,
    /// `ru-MD`: 1&#xa0;000&#xa0;000
    ru_MD,
    /// `ru-UA`: 1&#xa0;000&#xa0;000
    ru_UA,
    /// `rw`: 1.000.000
    rw,
    /// `rwk`: 1,000,000
    rwk,
    /// `sah`: 1&#xa0;000&#xa0;000
    sah,
    /// `saq`: 1,000,000
    saq,
    /// `sbp`: 1,000,000
    sbp,
    /// `sd`: 1٬000٬000
    sd,
    /// `se`: 1&#xa0;000&#xa0;000
    se,
    /// `se-FI`: 1&#xa0;000&#xa0;000
    se_FI,
    /// `se-SE`: 1&#xa0;000&#xa0;000
    se_SE,
    /// `seh`: 1.000.000
    seh,
    /// `ses`: 1&#xa0;000&#xa0;000
    ses,
    /// `sg`: 1.000.000
    sg,
    /// `shi`: 1&#xa0;000&#xa0;000
    shi,
    /// `shi-Latn`: 1&#xa0;000&#xa0;000
    shi_Latn,
    /// `shi-Tfng`: 1&#xa0;000&#xa0;000
    shi_Tfng,
    /// `si`: 1,000,000
    si,
    /// `sk`: 1&#xa0;000&#xa0;000
    sk,
    /// `sl`: 1.000.000
    sl,
    /// `smn`: 1&#xa0;000&#xa0;000
    smn,
    /// `sn`: 1,000,000
    sn,
    /// `so`: 1,000,000
    so,
    /// `so-DJ`: 1,000,000
    so_DJ,
    /// `so-ET`: 1,000,000
    so_ET,
    /// `so-KE`: 1,000,000
    so_KE,
    /// `sq`: 1&#xa0;000&#xa0;000
    sq,
    /// `sq-MK`: 1&#xa0;000&#xa0;000
    sq_MK,
    /// `sq-XK`: 1&#xa0;000&#xa0;000
    sq_XK,
    /// `sr`: 1.000.000
    sr,
    /// `sr-Cyrl`: 1.000.000
    sr_Cyrl,
    /// `sr-Cyrl-BA`: 1.000.000
    sr_Cyrl_BA,
    /// `sr-Cyrl-ME`: 1.000.000
    sr_Cyrl_ME,
    /// `sr-Cyrl-XK`: 1.000.000
    sr_Cyrl_XK,
    /// `sr-Latn`: 1.000.000
    sr_Latn,
    /// `sr-Latn-BA`: 1.000.000
    sr_Latn_BA,
    /// `sr-Latn-ME`: 1.000.000
    sr_Latn_ME,
    /// `sr-Latn-XK`: 1.000.000
    sr_Latn_XK,
    /// `sv`: 1&#xa0;000&#xa0;000
    sv,
    /// `sv-AX`: 1&#xa0;000&#xa0;000
    sv_AX,
    /// `sv-FI`: 1&#xa0;000&#xa0;000
    sv_FI,
    /// `sw`: 1,000,000
    sw,
    /// `sw-CD`: 1.000.000
    sw_CD,
    /// `sw-KE`: 1,000,000
    sw_KE,
    /// `sw-UG`: 1,000,000
    sw_UG,
    /// `ta`: 10,00,000
    ta,
    /// `ta-LK`: 10,00,000
    ta_LK,
    /// `ta-MY`: 1,000,000
    ta_MY,
    /// `ta-SG`: 1,000,000
    ta_SG,
    /// `te`: 10,00,000
    te,
    /// `teo`: 1,000,000
    teo,
    /// `teo-KE`: 1,000,000
    teo_KE,
    /// `tg`: 1&#xa0;000&#xa0;000
    tg,
    /// `th`: 1,000,000
    th,
    /// `ti`: 1,000,000
    ti,
    /// `ti-ER`: 1,000,000
    ti_ER,
    /// `tk`: 1&#xa0;000&#xa0;000
    tk,
    /// `to`: 1,000,000
    to,
    /// `tr`: 1.000.000
    tr,
    /// `tr-CY`: 1.000.000
    tr_CY,
    /// `tt`: 1&#xa0;000&#xa0;000
    tt,
    /// `twq`: 1&#xa0;000&#xa0;000
    twq,
    /// `tzm`: 1&#xa0;000&#xa0;000
    tzm,
    /// `ug`: 1,000,000
    ug,
    /// `uk`: 1&#xa0;000&#xa0;000
    uk,
    /// `ur`: 1,000,000
    ur,
    /// `ur-IN`: 1٬000٬000
    ur_IN,
    /// `uz`: 1&#xa0;000&#xa0;000
    uz,
    /// `uz-Arab`: 1٬000٬000
    uz_Arab,
    /// `uz-Cyrl`: 1&#xa0;000&#xa0;000
    uz_Cyrl,
    /// `uz-Latn`: 1&#xa0;000&#xa0;000
    uz_Latn,
    /// `vai`: 1,000,000
    vai,
    /// `vai-Latn`: 1,000,000
    vai_Latn,
    /// `vai-Vaii`: 1,000,000
    vai_Vaii,
    /// `vi`: 1.000.000
    vi,
    /// `vo`: 1,000,000
    vo,
    /// `vun`: 1,000,000
    vun,
    /// `wae`: 1’000’000
    wae,
    /// `wo`: 1.000.000
    wo,
    /// `xh`: 1&#xa0;000&#xa0;000
    xh,
    /// `xog`: 1,000,000
    xog,
    /// `yav`: 1&#xa0;000&#xa0;000
    yav,
    /// `yi`: 1,000,000
    yi,
    /// `yo`: 1,000,000
    yo,
    /// `yo-BJ`: 1,000,000
    yo_BJ,
    /// `yue`: 1,000,000
    yue,
    /// `yue-Hans`: 1,000,000
    yue_Hans,
    /// `yue-Hant`: 1,000,000
    yue_Hant,
    /// `zgh`: 1&#xa0;000&#xa0;000
    zgh,
    /// `zh`: 1,000,000
    zh,
    /// `zh-Hans`: 1,000,000
    zh_Hans,
    /// `zh-Hans-HK`: 1,000,000
    zh_Hans_HK,
    /// `zh-Hans-MO`: 1,000,000
    zh_Hans_MO,
    /// `zh-Hans-SG`: 1,000,000
    zh_Hans_SG,
    /// `zh-Hant`: 1,000,000
    zh_Hant,
    /// `zh-Hant-HK`: 1,000,000
    zh_Hant_HK,
    /// `zh-Hant-MO`: 1,000,000
    zh_Hant_MO,
    /// `zu`: 1,000,000
    zu,
}

pub(super) const LEN: usize = 542;

/// The names, in rising byte order, which is that of the variants.
#[rustfmt::skip]
pub(super) const NAMES: [&str; LEN] = [
    "af", "af-NA", "agq", "ak", "am", "ar", "ar-AE", "ar-BH", "ar-DJ", "ar-DZ", "ar-EG", "ar-EH",
    "ar-ER", "ar-IL", "ar-IQ", "ar-JO", "ar-KM", "ar-KW", "ar-LB", "ar-LY", "ar-MA", "ar-MR",
    "ar-OM", "ar-PS", "ar-QA", "ar-SA", "ar-SD", "ar-SO", "ar-SS", "ar-SY", "ar-TD", "ar-TN",
    "ar-YE", "as", "asa", "ast", "az", "az-Cyrl", "az-Latn", "bas", "be", "bem", "bez", "bg", "bm",
    "bn", "bn-IN", "bo", "bo-IN", "br", "brx", "bs", "bs-Cyrl", "bs-Latn", "ca", "ca-AD",
    "ca-ES-VALENCIA", "ca-FR", "ca-IT", "ccp", "ccp-IN", "ce", "ceb", "cgg", "chr", "ckb", "ckb-IR",
    "cs", "cu", "cy", "da", "da-GL", "dav", "de", "de-AT", "de-BE", "de-CH", "de-IT", "de-LI",
    "de-LU", "dje", "dsb", "dua", "dyo", "dz", "ebu", "ee", "ee-TG", "el", "el-CY", "en", "en-001",
    "en-150", "en-AE", "en-AG", "en-AI", "en-AS", "en-AT", "en-AU", "en-BB", "en-BE", "en-BI",
    "en-BM", "en-BS", "en-BW", "en-BZ", "en-CA", "en-CC", "en-CH", "en-CK", "en-CM", "en-CX",
    "en-CY", "en-DE", "en-DG", "en-DK", "en-DM", "en-ER", "en-FI", "en-FJ", "en-FK", "en-FM",
    "en-GB", "en-GD", "en-GG", "en-GH", "en-GI", "en-GM", "en-GU", "en-GY", "en-HK", "en-IE",
    "en-IL", "en-IM", "en-IN", "en-IO", "en-JE", "en-JM", "en-KE", "en-KI", "en-KN", "en-KY",
    "en-LC", "en-LR", "en-LS", "en-MG", "en-MH", "en-MO", "en-MP", "en-MS", "en-MT", "en-MU",
    "en-MW", "en-MY", "en-NA", "en-NF", "en-NG", "en-NL", "en-NR", "en-NU", "en-NZ", "en-PG",
    "en-PH", "en-PK", "en-PN", "en-PR", "en-PW", "en-RW", "en-SB", "en-SC", "en-SD", "en-SE",
    "en-SG", "en-SH", "en-SI", "en-SL", "en-SS", "en-SX", "en-SZ", "en-TC", "en-TK", "en-TO",
    "en-TT", "en-TV", "en-TZ", "en-UG", "en-UM", "en-US-POSIX", "en-VC", "en-VG", "en-VI", "en-VU",
    "en-WS", "en-ZA", "en-ZM", "en-ZW", "eo", "es", "es-419", "es-AR", "es-BO", "es-BR", "es-BZ",
    "es-CL", "es-CO", "es-CR", "es-CU", "es-DO", "es-EA", "es-EC", "es-GQ", "es-GT", "es-HN",
    "es-IC", "es-MX", "es-NI", "es-PA", "es-PE", "es-PH", "es-PR", "es-PY", "es-SV", "es-US",
    "es-UY", "es-VE", "et", "eu", "ewo", "fa", "fa-AF", "ff", "ff-Latn", "ff-Latn-BF", "ff-Latn-CM",
    "ff-Latn-GH", "ff-Latn-GM", "ff-Latn-GN", "ff-Latn-GW", "ff-Latn-LR", "ff-Latn-MR",
    "ff-Latn-NE", "ff-Latn-NG", "ff-Latn-SL", "fi", "fil", "fo", "fo-DK", "fr", "fr-BE", "fr-BF",
    "fr-BI", "fr-BJ", "fr-BL", "fr-CA", "fr-CD", "fr-CF", "fr-CG", "fr-CH", "fr-CI", "fr-CM",
    "fr-DJ", "fr-DZ", "fr-GA", "fr-GF", "fr-GN", "fr-GP", "fr-GQ", "fr-HT", "fr-KM", "fr-LU",
    "fr-MA", "fr-MC", "fr-MF", "fr-MG", "fr-ML", "fr-MQ", "fr-MR", "fr-MU", "fr-NC", "fr-NE",
    "fr-PF", "fr-PM", "fr-RE", "fr-RW", "fr-SC", "fr-SN", "fr-SY", "fr-TD", "fr-TG", "fr-TN",
    "fr-VU", "fr-WF", "fr-YT", "fur", "fy", "ga", "ga-GB", "gd", "gl", "gsw", "gsw-FR", "gsw-LI",
    "gu", "guz", "gv", "ha", "ha-GH", "ha-NE", "haw", "he", "hi", "hr", "hr-BA", "hsb", "hu", "hy",
    "ia", "id", "ig", "ii", "is", "it", "it-CH", "it-SM", "it-VA", "ja", "jgo", "jmc", "jv", "ka",
    "kab", "kam", "kde", "kea", "khq", "ki", "kk", "kkj", "kl", "kln", "km", "kn", "ko", "ko-KP",
    "kok", "ks", "ksb", "ksf", "ksh", "ku", "kw", "ky", "lag", "lb", "lg", "lkt", "ln", "ln-AO",
    "ln-CF", "ln-CG", "lo", "lrc", "lrc-IQ", "lt", "lu", "luo", "luy", "lv", "mas", "mas-TZ", "mer",
    "mfe", "mg", "mgh", "mgo", "mi", "mk", "ml", "mn", "mr", "ms", "ms-BN", "ms-SG", "mt", "mua",
    "my", "mzn", "naq", "nb", "nb-SJ", "nd", "nds", "nds-NL", "ne", "ne-IN", "nl", "nl-AW", "nl-BE",
    "nl-BQ", "nl-CW", "nl-SR", "nl-SX", "nmg", "nn", "nnh", "nus", "nyn", "om", "om-KE", "or", "os",
    "os-RU", "pa", "pa-Arab", "pa-Guru", "pl", "prg", "ps", "ps-PK", "pt", "pt-AO", "pt-CH",
    "pt-CV", "pt-GQ", "pt-GW", "pt-LU", "pt-MO", "pt-MZ", "pt-PT", "pt-ST", "pt-TL", "qu", "qu-BO",
    "qu-EC", "rm", "rn", "ro", "ro-MD", "rof", "root", "ru", "ru-BY", "ru-KG", "ru-KZ", "ru-MD",
    "ru-UA", "rw", "rwk", "sah", "saq", "sbp", "sd", "se", "se-FI", "se-SE", "seh", "ses", "sg",
    "shi", "shi-Latn", "shi-Tfng", "si", "sk", "sl", "smn", "sn", "so", "so-DJ", "so-ET", "so-KE",
    "sq", "sq-MK", "sq-XK", "sr", "sr-Cyrl", "sr-Cyrl-BA", "sr-Cyrl-ME", "sr-Cyrl-XK", "sr-Latn",
    "sr-Latn-BA", "sr-Latn-ME", "sr-Latn-XK", "sv", "sv-AX", "sv-FI", "sw", "sw-CD", "sw-KE",
    "sw-UG", "ta", "ta-LK", "ta-MY", "ta-SG", "te", "teo", "teo-KE", "tg", "th", "ti", "ti-ER",
    "tk", "to", "tr", "tr-CY", "tt", "twq", "tzm", "ug", "uk", "ur", "ur-IN", "uz", "uz-Arab",
    "uz-Cyrl", "uz-Latn", "vai", "vai-Latn", "vai-Vaii", "vi", "vo", "vun", "wae", "wo", "xh",
    "xog", "yav", "yi", "yo", "yo-BJ", "yue", "yue-Hans", "yue-Hant", "zgh", "zh", "zh-Hans",
    "zh-Hans-HK", "zh-Hans-MO", "zh-Hans-SG", "zh-Hant", "zh-Hant-HK", "zh-Hant-MO", "zu",
];

/// The data of each locale, in the same order: its variant, grouping, decimal mark, infinity, minus sign,
/// NaN, plus sign and separator.
#[rustfmt::skip]
pub(super) static ROWS: [Row; LEN] = [
    row(Locale::af, Grouping::Standard, ",", "\u{221e}", "-", "NaN", "+", "\u{a0}"),
    row(Locale::af_NA, Grouping::Standard, ",", "\u{221e}", "-", "NaN", "+", "\u{a0}"),
    row(Locale::agq, Grouping::Standard, ",", "\u{221e}", "-", "NaN", "+", "\u{a0}"),
    row(Locale::ak, Grouping::Standard, ".", "\u{221e}", "-", "NaN", "+", ","),
    row(Locale::am, Grouping::Standard, ".", "\u{221e}", "-", "NaN", "+", ","),
    row(Locale::ar, Grouping::Standard, "\u{66b}", "\u{221e}", "\u{61c}-", "\u{644}\u{64a}\u{633}\u{a0}\u{631}\u{642}\u{645}", "\u{61c}+", "\u{66c}"),
    row(Locale::ar_AE, Grouping::Standard, "\u{66b}", "\u{221e}", "\u{61c}-", "\u{644}\u{64a}\u{633}\u{a0}\u{631}\u{642}\u{645}", "\u{61c}+", "\u{66c}"),
    row(Locale::ar_BH, Grouping::Standard, "\u{66b}", "\u{221e}", "\u{61c}-", "\u{644}\u{64a}\u{633}\u{a0}\u{631}\u{642}\u{645}", "\u{61c}+", "\u{66c}"),
    row(Locale::ar_DJ, Grouping::Standard, "\u{66b}", "\u{221e}", "\u{61c}-", "\u{644}\u{64a}\u{633}\u{a0}\u{631}\u{642}\u{645}", "\u{61c}+", "\u{66c}"),
    row(Locale::ar_DZ, Grouping::Standard, ",", "\u{221e}", "\u{200e}-", "\u{644}\u{64a}\u{633}\u{a0}\u{631}\u{642}\u{645}\u{64b}\u{627}", "\u{200e}+", "."),
    row(Locale::ar_EG, Grouping::Standard, "\u{66b}", "\u{221e}", "\u{61c}-", "\u{644}\u{64a}\u{633}\u{a0}\u{631}\u{642}\u{645}", "\u{61c}+", "\u{66c}"),
    row(Locale::ar_EH, Grouping::Standard, ".", "\u{221e}", "\u{200e}-", "\u{644}\u{64a}\u{633}\u{a0}\u{631}\u{642}\u{645}\u{64b}\u{627}", "\u{200e}+", ","),
    row(Locale::ar_ER, Grouping::Standard, "\u{66b}", "\u{221e}", "\u{61c}-", "\u{644}\u{64a}\u{633}\u{a0}\u{631}\u{642}\u{645}", "\u{61c}+", "\u{66c}"),
    row(Locale::ar_IL, Grouping::Standard, "\u{66b}", "\u{221e}", "\u{61c}-", "\u{644}\u{64a}\u{633}\u{a0}\u{631}\u{642}\u{645}", "\u{61c}+", "\u{66c}"),
    row(Locale::ar_IQ, Grouping::Standard, "\u{66b}", "\u{221e}", "\u{61c}-", "\u{644}\u{64a}\u{633}\u{a0}\u{631}\u{642}\u{645}", "\u{61c}+", "\u{66c}"),
    row(Locale::ar_JO, Grouping::Standard, "\u{66b}", "\u{221e}", "\u{61c}-", "\u{644}\u{64a}\u{633}\u{a0}\u{631}\u{642}\u{645}", "\u{61c}+", "\u{66c}"),
    row(Locale::ar_KM, Grouping::Standard, "\u{66b}", "\u{221e}", "\u{61c}-", "\u{644}\u{64a}\u{633}\u{a0}\u{631}\u{642}\u{645}", "\u{61c}+", "\u{66c}"),
    row(Locale::ar_KW, Grouping::Standard, "\u{66b}", "\u{221e}", "\u{61c}-", "\u{644}\u{64a}\u{633}\u{a0}\u{631}\u{642}\u{645}", "\u{61c}+", "\u{66c}"),
    row(Locale::ar_LB, Grouping::Standard, "\u{66b}", "\u{221e}", "\u{61c}-", "\u{644}\u{64a}\u{633}\u{a0}\u{631}\u{642}\u{645}", "\u{61c}+", "\u{66c}"),
    row(Locale::ar_LY, Grouping::Standard, ",", "\u{221e}", "\u{200e}-", "\u{644}\u{64a}\u{633}\u{a0}\u{631}\u{642}\u{645}\u{64b}\u{627}", "\u{200e}+", "."),
    row(Locale::ar_MA, Grouping::Standard, ",", "\u{221e}", "\u{200e}-", "\u{644}\u{64a}\u{633}\u{a0}\u{631}\u{642}\u{645}\u{64b}\u{627}", "\u{200e}+", "."),
    row(Locale::ar_MR, Grouping::Standard, "\u{66b}", "\u{221e}", "\u{61c}-", "\u{644}\u{64a}\u{633}\u{a0}\u{631}\u{642}\u{645}", "\u{61c}+", "\u{66c}"),
    row(Locale::ar_OM, Grouping::Standard, "\u{66b}", "\u{221e}", "\u{61c}-", "\u{644}\u{64a}\u{633}\u{a0}\u{631}\u{642}\u{645}", "\u{61c}+", "\u{66c}"),
    row(Locale::ar_PS, Grouping::Standard, "\u{66b}", "\u{221e}", "\u{61c}-", "\u{644}\u{64a}\u{633}\u{a0}\u{631}\u{642}\u{645}", "\u{61c}+", "\u{66c}"),
    row(Locale::ar_QA, Grouping::Standard, "\u{66b}", "\u{221e}", "\u{61c}-", "\u{644}\u{64a}\u{633}\u{a0}\u{631}\u{642}\u{645}", "\u{61c}+", "\u{66c}"),
    row(Locale::ar_SA, Grouping::Standard, "\u{66b}", "\u{221e}", "\u{61c}-", "\u{644}\u{64a}\u{633}\u{a0}\u{631}\u{642}\u{645}", "\u{61c}+", "\u{66c}"),
    row(Locale::ar_SD, Grouping::Standard, "\u{66b}", "\u{221e}", "\u{61c}-", "\u{644}\u{64a}\u{633}\u{a0}\u{631}\u{642}\u{645}", "\u{61c}+", "\u{66c}"),
    row(Locale::ar_SO, Grouping::Standard, "\u{66b}", "\u{221e}", "\u{61c}-", "\u{644}\u{64a}\u{633}\u{a0}\u{631}\u{642}\u{645}", "\u{61c}+", "\u{66c}"),
    row(Locale::ar_SS, Grouping::Standard, "\u{66b}", "\u{221e}", "\u{61c}-", "\u{644}\u{64a}\u{633}\u{a0}\u{631}\u{642}\u{645}", "\u{61c}+", "\u{66c}"),
    row(Locale::ar_SY, Grouping::Standard, "\u{66b}", "\u{221e}", "\u{61c}-", "\u{644}\u{64a}\u{633}\u{a0}\u{631}\u{642}\u{645}", "\u{61c}+", "\u{66c}"),
    row(Locale::ar_TD, Grouping::Standard, "\u{66b}", "\u{221e}", "\u{61c}-", "\u{644}\u{64a}\u{633}\u{a0}\u{631}\u{642}\u{645}", "\u{61c}+", "\u{66c}"),
    row(Locale::ar_TN, Grouping::Standard, ",", "\u{221e}", "\u{200e}-", "\u{644}\u{64a}\u{633}\u{a0}\u{631}\u{642}\u{645}\u{64b}\u{627}", "\u{200e}+", "."),
    row(Locale::ar_YE, Grouping::Standard, "\u{66b}", "\u{221e}", "\u{61c}-", "\u{644}\u{64a}\u{633}\u{a0}\u{631}\u{642}\u{645}", "\u{61c}+", "\u{66c}"),
    row(Locale::as_, Grouping::Indian, ".", "\u{221e}", "-", "NaN", "+", ","),
    row(Locale::asa, Grouping::Standard, ".", "\u{221e}", "-", "NaN", "+", ","),
    row(Locale::ast, Grouping::Standard, ",", "\u{221e}", "-", "ND", "+", "."),
    row(Locale::az, Grouping::Standard, ",", "\u{221e}", "-", "NaN", "+", "."),
    row(Locale::az_Cyrl, Grouping::Standard, ",", "\u{221e}", "-", "NaN", "+", "."),
    row(Locale::az_Latn, Grouping::Standard, ",", "\u{221e}", "-", "NaN", "+", "."),
    row(Locale::bas, Grouping::Standard, ",", "\u{221e}", "-", "NaN", "+", "\u{a0}"),
    row(Locale::be, Grouping::Standard, ",", "\u{221e}", "-", "NaN", "+", "\u{a0}"),
    row(Locale::bem, Grouping::Standard, ".", "\u{221e}", "-", "NaN", "+", ","),
    row(Locale::bez, Grouping::Standard, ".", "\u{221e}", "-", "NaN", "+", ","),
    row(Locale::bg, Grouping::Standard, ",", "\u{221e}", "-", "NaN", "+", "\u{a0}"),
    row(Locale::bm, Grouping::Standard, ".", "\u{221e}", "-", "NaN", "+", ","),
    row(Locale::bn, Grouping::Indian, ".", "\u{221e}", "-", "NaN", "+", ","),
    row(Locale::bn_IN, Grouping::Indian, ".", "\u{221e}", "-", "NaN", "+", ","),
    row(Locale::bo, Grouping::Standard, ".", "\u{221e}", "-", "NaN", "+", ","),
    row(Locale::bo_IN, Grouping::Standard, ".", "\u{221e}", "-", "NaN", "+", ","),
    row(Locale::br, Grouping::Standard, ",", "\u{221e}", "-", "NaN", "+", "\u{a0}"),
    row(Locale::brx, Grouping::Indian, ".", "\u{221e}", "-", "NaN", "+", ","),
    row(Locale::bs, Grouping::Standard, ",", "\u{221e}", "-", "NaN", "+", "."),
    row(Locale::bs_Cyrl, Grouping::Standard, ",", "\u{221e}", "-", "NaN", "+", "."),
    row(Locale::bs_Latn, Grouping::Standard, ",", "\u{221e}", "-", "NaN", "+", "."),
    row(Locale::ca, Grouping::Standard, ",", "\u{221e}", "-", "NaN", "+", "."),
    row(Locale::ca_AD, Grouping::Standard, ",", "\u{221e}", "-", "NaN", "+", "."),
    row(Locale::ca_ES_VALENCIA, Grouping::Standard, ",", "\u{221e}", "-", "NaN", "+", "."),
    row(Locale::ca_FR, Grouping::Standard, ",", "\u{221e}", "-", "NaN", "+", "."),
    row(Locale::ca_IT, Grouping::Standard, ",", "\u{221e}", "-", "NaN", "+", "."),
    row(Locale::ccp, Grouping::Indian, ".", "\u{221e}", "-", "NaN", "+", ","),
    row(Locale::ccp_IN, Grouping::Indian, ".", "\u{221e}", "-", "NaN", "+", ","),
    row(Locale::ce, Grouping::Standard, ".", "\u{221e}", "-", "Терхьаш\u{a0}дац", "+", ","),
    row(Locale::ceb, Grouping::Standard, ".", "\u{221e}", "-", "NaN", "+", ","),
    row(Locale::cgg, Grouping::Standard, ".", "\u{221e}", "-", "NaN", "+", ","),
    row(Locale::chr, Grouping::Standard, ".", "\u{221e}", "-", "NaN", "+", ","),
    row(Locale::ckb, Grouping::Standard, "\u{66b}", "\u{221e}", "\u{200f}-", "NaN", "\u{200f}+", "\u{66c}"),
    row(Locale::ckb_IR, Grouping::Standard, "\u{66b}", "\u{221e}", "\u{200f}-", "NaN", "\u{200f}+", "\u{66c}"),
    row(Locale::cs, Grouping::Standard, ",", "\u{221e}", "-", "NaN", "+", "\u{a0}"),
    row(Locale::cu, Grouping::Standard, ".", "\u{221e}", "-", "NaN", "+", ","),
    row(Locale::cy, Grouping::Standard, ".", "\u{221e}", "-", "NaN", "+", ","),
    row(Locale::da, Grouping::Standard, ",", "\u{221e}", "-", "NaN", "+", "."),
    row(Locale::da_GL, Grouping::Standard, ",", "\u{221e}", "-", "NaN", "+", "."),
    row(Locale::dav, Grouping::Standard, ".", "\u{221e}", "-", "NaN", "+", ","),
    row(Locale::de, Grouping::Standard, ",", "\u{221e}", "-", "NaN", "+", "."),
    row(Locale::de_AT, Grouping::Standard, ",", "\u{221e}", "-", "NaN", "+", "\u{a0}"),
    row(Locale::de_BE, Grouping::Standard, ",", "\u{221e}", "-", "NaN", "+", "."),
    row(Locale::de_CH, Grouping::Standard, ".", "\u{221e}", "-", "NaN", "+", "\u{2019}"),
    row(Locale::de_IT, Grouping::Standard, ",", "\u{221e}", "-", "NaN", "+", "."),
    row(Locale::de_LI, Grouping::Standard, ".", "\u{221e}", "-", "NaN", "+", "\u{2019}"),
    row(Locale::de_LU, Grouping::Standard, ",", "\u{221e}", "-", "NaN", "+", "."),
    row(Locale::dje, Grouping::Standard, ".", "\u{221e}", "-", "NaN", "+", "\u{a0}"),
    row(Locale::dsb, Grouping::Standard, ",", "\u{221e}", "-", "NaN", "+", "."),
    row(Locale::dua, Grouping::Standard, ",", "\u{221e}", "-", "NaN", "+", "\u{a0}"),
    row(Locale::dyo, Grouping::Standard, ",", "\u{221e}", "-", "NaN", "+", "\u{a0}"),
    row(Locale::dz, Grouping::Indian, ".", "ག\u{fb2}ངས་མ\u{f7a}ད", "-", "ཨང་མད", "+", ","),
    row(Locale::ebu, Grouping::Standard, ".", "\u{221e}", "-", "NaN", "+", ","),
    row(Locale::ee, Grouping::Standard, ".", "\u{221e}", "-", "mnn", "+", ","),
    row(Locale::ee_TG, Grouping::Standard, ".", "\u{221e}", "-", "mnn", "+", ","),
    row(Locale::el, Grouping::Standard, ",", "\u{221e}", "-", "NaN", "+", "."),
    row(Locale::el_CY, Grouping::Standard, ",", "\u{221e}", "-", "NaN", "+", "."),
    row(Locale::en, Grouping::Standard, ".", "\u{221e}", "-", "NaN", "+", ","),
    row(Locale::en_001, Grouping::Standard, ".", "\u{221e}", "-", "NaN", "+", ","),
    row(Locale::en_150, Grouping::Standard, ".", "\u{221e}", "-", "NaN", "+", ","),
    row(Locale::en_AE, Grouping::Standard, ".", "\u{221e}", "-", "NaN", "+", ","),
    row(Locale::en_AG, Grouping::Standard, ".", "\u{221e}", "-", "NaN", "+", ","),
    row(Locale::en_AI, Grouping::Standard, ".", "\u{221e}", "-", "NaN", "+", ","),
    row(Locale::en_AS, Grouping::Standard, ".", "\u{221e}", "-", "NaN", "+", ","),
    row(Locale::en_AT, Grouping::Standard, ",", "\u{221e}", "-", "NaN", "+", "."),
    row(Locale::en_AU, Grouping::Standard, ".", "\u{221e}", "-", "NaN", "+", ","),
    row(Locale::en_BB, Grouping::Standard, ".", "\u{221e}", "-", "NaN", "+", ","),
    row(Locale::en_BE, Grouping::Standard, ",", "\u{221e}", "-", "NaN", "+", "."),
    row(Locale::en_BI, Grouping::Standard, ".", "\u{221e}", "-", "NaN", "+", ","),
    row(Locale::en_BM, Grouping::Standard, ".", "\u{221e}", "-", "NaN", "+", ","),
    row(Locale::en_BS, Grouping::Standard, ".", "\u{221e}", "-", "NaN", "+", ","),
    row(Locale::en_BW, Grouping::Standard, ".", "\u{221e}", "-", "NaN", "+", ","),
    row(Locale::en_BZ, Grouping::Standard, ".", "\u{221e}", "-", "NaN", "+", ","),
    row(Locale::en_CA, Grouping::Standard, ".", "\u{221e}", "-", "NaN", "+", ","),
    row(Locale::en_CC, Grouping::Standard, ".", "\u{221e}", "-", "NaN", "+", ","),
    row(Locale::en_CH, Grouping::Standard, ".", "\u{221e}", "-", "NaN", "+", "\u{2019}"),
    row(Locale::en_CK, Grouping::Standard, ".", "\u{221e}", "-", "NaN", "+", ","),
    row(Locale::en_CM, Grouping::Standard, ".", "\u{221e}", "-", "NaN", "+", ","),
    row(Locale::en_CX, Grouping::Standard, ".", "\u{221e}", "-", "NaN", "+", ","),
    row(Locale::en_CY, Grouping::Standard, ".", "\u{221e}", "-", "NaN", "+", ","),
    row(Locale::en_DE, Grouping::Standard, ",", "\u{221e}", "-", "NaN", "+", "."),
    row(Locale::en_DG, Grouping::Standard, ".", "\u{221e}", "-", "NaN", "+", ","),
    row(Locale::en_DK, Grouping::Standard, ",", "\u{221e}", "-", "NaN", "+", "."),
    row(Locale::en_DM, Grouping::Standard, ".", "\u{221e}", "-", "NaN", "+", ","),
    row(Locale::en_ER, Grouping::Standard, ".", "\u{221e}", "-", "NaN", "+", ","),
    row(Locale::en_FI, Grouping::Standard, ",", "\u{221e}", "-", "NaN", "+", "\u{a0}"),
    row(Locale::en_FJ, Grouping::Standard, ".", "\u{221e}", "-", "NaN", "+", ","),
    row(Locale::en_FK, Grouping::Standard, ".", "\u{221e}", "-", "NaN", "+", ","),
    row(Locale::en_FM, Grouping::Standard, ".", "\u{221e}", "-", "NaN", "+", ","),
    row(Locale::en_GB, Grouping::Standard, ".", "\u{221e}", "-", "NaN", "+", ","),
    row(Locale::en_GD, Grouping::Standard, ".", "\u{221e}", "-", "NaN", "+", ","),
    row(Locale::en_GG, Grouping::Standard, ".", "\u{221e}", "-", "NaN", "+", ","),
    row(Locale::en_GH, Grouping::Standard, ".", "\u{221e}", "-", "NaN", "+", ","),
    row(Locale::en_GI, Grouping::Standard, ".", "\u{221e}", "-", "NaN", "+", ","),
    row(Locale::en_GM, Grouping::Standard, ".", "\u{221e}", "-", "NaN", "+", ","),
    row(Locale::en_GU, Grouping::Standard, ".", "\u{221e}", "-", "NaN", "+", ","),
    row(Locale::en_GY, Grouping::Standard, ".", "\u{221e}", "-", "NaN", "+", ","),
    row(Locale::en_HK, Grouping::Standard, ".", "\u{221e}", "-", "NaN", "+", ","),
    row(Locale::en_IE, Grouping::Standard, ".", "\u{221e}", "-", "NaN", "+", ","),
    row(Locale::en_IL, Grouping::Standard, ".", "\u{221e}", "-", "NaN", "+", ","),
    row(Locale::en_IM, Grouping::Standard, ".", "\u{221e}", "-", "NaN", "+", ","),
    row(Locale::en_IN, Grouping::Indian, ".", "\u{221e}", "-", "NaN", "+", ","),
    row(Locale::en_IO, Grouping::Standard, ".", "\u{221e}", "-", "NaN", "+", ","),
    row(Locale::en_JE, Grouping::Standard, ".", "\u{221e}", "-", "NaN", "+", ","),
    row(Locale::en_JM, Grouping::Standard, ".", "\u{221e}", "-", "NaN", "+", ","),
    row(Locale::en_KE, Grouping::Standard, ".", "\u{221e}", "-", "NaN", "+", ","),
    row(Locale::en_KI, Grouping::Standard, ".", "\u{221e}", "-", "NaN", "+", ","),
    row(Locale::en_KN, Grouping::Standard, ".", "\u{221e}", "-", "NaN", "+", ","),
    row(Locale::en_KY, Grouping::Standard, ".", "\u{221e}", "-", "NaN", "+", ","),
    row(Locale::en_LC, Grouping::Standard, ".", "\u{221e}", "-", "NaN", "+", ","),
    row(Locale::en_LR, Grouping::Standard, ".", "\u{221e}", "-", "NaN", "+", ","),
    row(Locale::en_LS, Grouping::Standard, ".", "\u{221e}", "-", "NaN", "+", ","),
    row(Locale::en_MG, Grouping::Standard, ".", "\u{221e}", "-", "NaN", "+", ","),
    row(Locale::en_MH, Grouping::Standard, ".", "\u{221e}", "-", "NaN", "+", ","),
    row(Locale::en_MO, Grouping::Standard, ".", "\u{221e}", "-", "NaN", "+", ","),
    row(Locale::en_MP, Grouping::Standard, ".", "\u{221e}", "-", "NaN", "+", ","),
    row(Locale::en_MS, Grouping::Standard, ".", "\u{221e}", "-", "NaN", "+", ","),
    row(Locale::en_MT, Grouping::Standard, ".", "\u{221e}", "-", "NaN", "+", ","),
    row(Locale::en_MU, Grouping::Standard, ".", "\u{221e}", "-", "NaN", "+", ","),
    row(Locale::en_MW, Grouping::Standard, ".", "\u{221e}", "-", "NaN", "+", ","),
    row(Locale::en_MY, Grouping::Standard, ".", "\u{221e}", "-", "NaN", "+", ","),
    row(Locale::en_NA, Grouping::Standard, ".", "\u{221e}", "-", "NaN", "+", ","),
    row(Locale::en_NF, Grouping::Standard, ".", "\u{221e}", "-", "NaN", "+", ","),
    row(Locale::en_NG, Grouping::Standard, ".", "\u{221e}", "-", "NaN", "+", ","),
    row(Locale::en_NL, Grouping::Standard, ",", "\u{221e}", "-", "NaN", "+", "."),
    row(Locale::en_NR, Grouping::Standard, ".", "\u{221e}", "-", "NaN", "+", ","),
    row(Locale::en_NU, Grouping::Standard, ".", "\u{221e}", "-", "NaN", "+", ","),
    row(Locale::en_NZ, Grouping::Standard, ".", "\u{221e}", "-", "NaN", "+", ","),
    row(Locale::en_PG, Grouping::Standard, ".", "\u{221e}", "-", "NaN", "+", ","),
    row(Locale::en_PH, Grouping::Standard, ".", "\u{221e}", "-", "NaN", "+", ","),
    row(Locale::en_PK, Grouping::Standard, ".", "\u{221e}", "-", "NaN", "+", ","),
    row(Locale::en_PN, Grouping::Standard, ".", "\u{221e}", "-", "NaN", "+", ","),
    row(Locale::en_PR, Grouping::Standard, ".", "\u{221e}", "-", "NaN", "+", ","),
    row(Locale::en_PW, Grouping::Standard, ".", "\u{221e}", "-", "NaN", "+", ","),
    row(Locale::en_RW, Grouping::Standard, ".", "\u{221e}", "-", "NaN", "+", ","),
    row(Locale::en_SB, Grouping::Standard, ".", "\u{221e}", "-", "NaN", "+", ","),
    row(Locale::en_SC, Grouping::Standard, ".", "\u{221e}", "-", "NaN", "+", ","),
    row(Locale::en_SD, Grouping::Standard, ".", "\u{221e}", "-", "NaN", "+", ","),
    row(Locale::en_SE, Grouping::Standard, ",", "\u{221e}", "-", "NaN", "+", "\u{a0}"),
    row(Locale::en_SG, Grouping::Standard, ".", "\u{221e}", "-", "NaN", "+", ","),
    row(Locale::en_SH, Grouping::Standard, ".", "\u{221e}", "-", "NaN", "+", ","),
    row(Locale::en_SI, Grouping::Standard, ",", "\u{221e}", "-", "NaN", "+", "."),
    row(Locale::en_SL, Grouping::Standard, ".", "\u{221e}", "-", "NaN", "+", ","),
    row(Locale::en_SS, Grouping::Standard, ".", "\u{221e}", "-", "NaN", "+", ","),
    row(Locale::en_SX, Grouping::Standard, ".", "\u{221e}", "-", "NaN", "+", ","),
    row(Locale::en_SZ, Grouping::Standard, ".", "\u{221e}", "-", "NaN", "+", ","),
    row(Locale::en_TC, Grouping::Standard, ".", "\u{221e}", "-", "NaN", "+", ","),
    row(Locale::en_TK, Grouping::Standard, ".", "\u{221e}", "-", "NaN", "+", ","),
    row(Locale::en_TO, Grouping::Standard, ".", "\u{221e}", "-", "NaN", "+", ","),
    row(Locale::en_TT, Grouping::Standard, ".", "\u{221e}", "-", "NaN", "+", ","),
    row(Locale::en_TV, Grouping::Standard, ".", "\u{221e}", "-", "NaN", "+", ","),
    row(Locale::en_TZ, Grouping::Standard, ".", "\u{221e}", "-", "NaN", "+", ","),
    row(Locale::en_UG, Grouping::Standard, ".", "\u{221e}", "-", "NaN", "+", ","),
    row(Locale::en_UM, Grouping::Standard, ".", "\u{221e}", "-", "NaN", "+", ","),
    row(Locale::en_US_POSIX, Grouping::Posix, ".", "INF", "-", "NaN", "+", ","),
    row(Locale::en_VC, Grouping::Standard, ".", "\u{221e}", "-", "NaN", "+", ","),
    row(Locale::en_VG, Grouping::Standard, ".", "\u{221e}", "-", "NaN", "+", ","),
    row(Locale::en_VI, Grouping::Standard, ".", "\u{221e}", "-", "NaN", "+", ","),
    row(Locale::en_VU, Grouping::Standard, ".", "\u{221e}", "-", "NaN", "+", ","),
    row(Locale::en_WS, Grouping::Standard, ".", "\u{221e}", "-", "NaN", "+", ","),
    row(Locale::en_ZA, Grouping::Standard, ",", "\u{221e}", "-", "NaN", "+", "\u{a0}"),
    row(Locale::en_ZM, Grouping::Standard, ".", "\u{221e}", "-", "NaN", "+", ","),
    row(Locale::en_ZW, Grouping::Standard, ".", "\u{221e}", "-", "NaN", "+", ","),
    row(Locale::eo, Grouping::Standard, ",", "\u{221e}", "-", "NaN", "+", "\u{a0}"),
    row(Locale::es, Grouping::Standard, ",", "\u{221e}", "-", "NaN", "+", "."),
    row(Locale::es_419, Grouping::Standard, ".", "\u{221e}", "-", "NaN", "+", ","),
    row(Locale::es_AR, Grouping::Standard, ",", "\u{221e}", "-", "NaN", "+", "."),
    row(Locale::es_BO, Grouping::Standard, ",", "\u{221e}", "-", "NaN", "+", "."),
    row(Locale::es_BR, Grouping::Standard, ".", "\u{221e}", "-", "NaN", "+", ","),
    row(Locale::es_BZ, Grouping::Standard, ".", "\u{221e}", "-", "NaN", "+", ","),
    row(Locale::es_CL, Grouping::Standard, ",", "\u{221e}", "-", "NaN", "+", "."),
    row(Locale::es_CO, Grouping::Standard, ",", "\u{221e}", "-", "NaN", "+", "."),
    row(Locale::es_CR, Grouping::Standard, ",", "\u{221e}", "-", "NaN", "+", "\u{a0}"),
    row(Locale::es_CU, Grouping::Standard, ".", "\u{221e}", "-", "NaN", "+", ","),
    row(Locale::es_DO, Grouping::Standard, ".", "\u{221e}", "-", "NaN", "+", ","),
    row(Locale::es_EA, Grouping::Standard, ",", "\u{221e}", "-", "NaN", "+", "."),
    row(Locale::es_EC, Grouping::Standard, ",", "\u{221e}", "-", "NaN", "+", "."),
    row(Locale::es_GQ, Grouping::Standard, ",", "\u{221e}", "-", "NaN", "+", "."),
    row(Locale::es_GT, Grouping::Standard, ".", "\u{221e}", "-", "NaN", "+", ","),
    row(Locale::es_HN, Grouping::Standard, ".", "\u{221e}", "-", "NaN", "+", ","),
    row(Locale::es_IC, Grouping::Standard, ",", "\u{221e}", "-", "NaN", "+", "."),
    row(Locale::es_MX, Grouping::Standard, ".", "\u{221e}", "-", "NaN", "+", ","),
    row(Locale::es_NI, Grouping::Standard, ".", "\u{221e}", "-", "NaN", "+", ","),
    row(Locale::es_PA, Grouping::Standard, ".", "\u{221e}", "-", "NaN", "+", ","),
    row(Locale::es_PE, Grouping::Standard, ".", "\u{221e}", "-", "NaN", "+", ","),
    row(Locale::es_PH, Grouping::Standard, ",", "\u{221e}", "-", "NaN", "+", "."),
    row(Locale::es_PR, Grouping::Standard, ".", "\u{221e}", "-", "NaN", "+", ","),
    row(Locale::es_PY, Grouping::Standard, ",", "\u{221e}", "-", "NaN", "+", "."),
    row(Locale::es_SV, Grouping::Standard, ".", "\u{221e}", "-", "NaN", "+", ","),
    row(Locale::es_US, Grouping::Standard, ".", "\u{221e}", "-", "NaN", "+", ","),
    row(Locale::es_UY, Grouping::Standard, ",", "\u{221e}", "-", "NaN", "+", "."),
    row(Locale::es_VE, Grouping::Standard, ",", "\u{221e}", "-", "NaN", "+", "."),
    row(Locale::et, Grouping::Standard, ",", "\u{221e}", "\u{2212}", "NaN", "+", "\u{a0}"),
    row(Locale::eu, Grouping::Standard, ",", "\u{221e}", "\u{2212}", "NaN", "+", "."),
    row(Locale::ewo, Grouping::Standard, ",", "\u{221e}", "-", "NaN", "+", "\u{a0}"),
    row(Locale::fa, Grouping::Standard, "\u{66b}", "\u{221e}", "\u{200e}\u{2212}", "\u{646}\u{627}\u{639}\u{62f}\u{62f}", "\u{200e}+", "\u{66c}"),
    row(Locale::fa_AF, Grouping::Standard, "\u{66b}", "\u{221e}", "\u{200e}\u{2212}", "\u{646}\u{627}\u{639}\u{62f}\u{62f}", "\u{200e}+", "\u{66c}"),
    row(Locale::ff, Grouping::Standard, ",", "\u{221e}", "-", "NaN", "+", "\u{a0}"),
    row(Locale::ff_Latn, Grouping::Standard, ",", "\u{221e}", "-", "NaN", "+", "\u{a0}"),
    row(Locale::ff_Latn_BF, Grouping::Standard, ",", "\u{221e}", "-", "NaN", "+", "\u{a0}"),
    row(Locale::ff_Latn_CM, Grouping::Standard, ",", "\u{221e}", "-", "NaN", "+", "\u{a0}"),
    row(Locale::ff_Latn_GH, Grouping::Standard, ",", "\u{221e}", "-", "NaN", "+", "\u{a0}"),
    row(Locale::ff_Latn_GM, Grouping::Standard, ",", "\u{221e}", "-", "NaN", "+", "\u{a0}"),
    row(Locale::ff_Latn_GN, Grouping::Standard, ",", "\u{221e}", "-", "NaN", "+", "\u{a0}"),
    row(Locale::ff_Latn_GW, Grouping::Standard, ",", "\u{221e}", "-", "NaN", "+", "\u{a0}"),
    row(Locale::ff_Latn_LR, Grouping::Standard, ",", "\u{221e}", "-", "NaN", "+", "\u{a0}"),
    row(Locale::ff_Latn_MR, Grouping::Standard, ",", "\u{221e}", "-", "NaN", "+", "\u{a0}"),
    row(Locale::ff_Latn_NE, Grouping::Standard, ",", "\u{221e}", "-", "NaN", "+", "\u{a0}"),
    row(Locale::ff_Latn_NG, Grouping::Standard, ",", "\u{221e}", "-", "NaN", "+", "\u{a0}"),
    row(Locale::ff_Latn_SL, Grouping::Standard, ",", "\u{221e}", "-", "NaN", "+", "\u{a0}"),
    row(Locale::fi, Grouping::Standard, ",", "\u{221e}", "\u{2212}", "epäluku", "+", "\u{a0}"),
    row(Locale::fil, Grouping::Standard, ".", "\u{221e}", "-", "NaN", "+", ","),
    row(Locale::fo, Grouping::Standard, ",", "\u{221e}", "\u{2212}", "NaN", "+", "."),
    row(Locale::fo_DK, Grouping::Standard, ",", "\u{221e}", "\u{2212}", "NaN", "+", "."),
    row(Locale::fr, Grouping::Standard, ",", "\u{221e}", "-", "NaN", "+", "\u{202f}"),
    row(Locale::fr_BE, Grouping::Standard, ",", "\u{221e}", "-", "NaN", "+", "\u{202f}"),
    row(Locale::fr_BF, Grouping::Standard, ",", "\u{221e}", "-", "NaN", "+", "\u{202f}"),
    row(Locale::fr_BI, Grouping::Standard, ",", "\u{221e}", "-", "NaN", "+", "\u{202f}"),
    row(Locale::fr_BJ, Grouping::Standard, ",", "\u{221e}", "-", "NaN", "+", "\u{202f}"),
    row(Locale::fr_BL, Grouping::Standard, ",", "\u{221e}", "-", "NaN", "+", "\u{202f}"),
    row(Locale::fr_CA, Grouping::Standard, ",", "\u{221e}", "-", "NaN", "+", "\u{a0}"),
    row(Locale::fr_CD, Grouping::Standard, ",", "\u{221e}", "-", "NaN", "+", "\u{202f}"),
    row(Locale::fr_CF, Grouping::Standard, ",", "\u{221e}", "-", "NaN", "+", "\u{202f}"),
    row(Locale::fr_CG, Grouping::Standard, ",", "\u{221e}", "-", "NaN", "+", "\u{202f}"),
    row(Locale::fr_CH, Grouping::Standard, ",", "\u{221e}", "-", "NaN", "+", "\u{202f}"),
    row(Locale::fr_CI, Grouping::Standard, ",", "\u{221e}", "-", "NaN", "+", "\u{202f}"),
    row(Locale::fr_CM, Grouping::Standard, ",", "\u{221e}", "-", "NaN", "+", "\u{202f}"),
    row(Locale::fr_DJ, Grouping::Standard, ",", "\u{221e}", "-", "NaN", "+", "\u{202f}"),
    row(Locale::fr_DZ, Grouping::Standard, ",", "\u{221e}", "-", "NaN", "+", "\u{202f}"),
    row(Locale::fr_GA, Grouping::Standard, ",", "\u{221e}", "-", "NaN", "+", "\u{202f}"),
    row(Locale::fr_GF, Grouping::Standard, ",", "\u{221e}", "-", "NaN", "+", "\u{202f}"),
    row(Locale::fr_GN, Grouping::Standard, ",", "\u{221e}", "-", "NaN", "+", "\u{202f}"),
    row(Locale::fr_GP, Grouping::Standard, ",", "\u{221e}", "-", "NaN", "+", "\u{202f}"),
    row(Locale::fr_GQ, Grouping::Standard, ",", "\u{221e}", "-", "NaN", "+", "\u{202f}"),
    row(Locale::fr_HT, Grouping::Standard, ",", "\u{221e}", "-", "NaN", "+", "\u{202f}"),
    row(Locale::fr_KM, Grouping::Standard, ",", "\u{221e}", "-", "NaN", "+", "\u{202f}"),
    row(Locale::fr_LU, Grouping::Standard, ",", "\u{221e}", "-", "NaN", "+", "."),
    row(Locale::fr_MA, Grouping::Standard, ",", "\u{221e}", "-", "NaN", "+", "."),
    row(Locale::fr_MC, Grouping::Standard, ",", "\u{221e}", "-", "NaN", "+", "\u{202f}"),
    row(Locale::fr_MF, Grouping::Standard, ",", "\u{221e}", "-", "NaN", "+", "\u{202f}"),
    row(Locale::fr_MG, Grouping::Standard, ",", "\u{221e}", "-", "NaN", "+", "\u{202f}"),
    row(Locale::fr_ML, Grouping::Standard, ",", "\u{221e}", "-", "NaN", "+", "\u{202f}"),
    row(Locale::fr_MQ, Grouping::Standard, ",", "\u{221e}", "-", "NaN", "+", "\u{202f}"),
    row(Locale::fr_MR, Grouping::Standard, ",", "\u{221e}", "-", "NaN", "+", "\u{202f}"),
    row(Locale::fr_MU, Grouping::Standard, ",", "\u{221e}", "-", "NaN", "+", "\u{202f}"),
    row(Locale::fr_NC, Grouping::Standard, ",", "\u{221e}", "-", "NaN", "+", "\u{202f}"),
    row(Locale::fr_NE, Grouping::Standard, ",", "\u{221e}", "-", "NaN", "+", "\u{202f}"),
    row(Locale::fr_PF, Grouping::Standard, ",", "\u{221e}", "-", "NaN", "+", "\u{202f}"),
    row(Locale::fr_PM, Grouping::Standard, ",", "\u{221e}", "-", "NaN", "+", "\u{202f}"),
    row(Locale::fr_RE, Grouping::Standard, ",", "\u{221e}", "-", "NaN", "+", "\u{202f}"),
    row(Locale::fr_RW, Grouping::Standard, ",", "\u{221e}", "-", "NaN", "+", "\u{202f}"),
    row(Locale::fr_SC, Grouping::Standard, ",", "\u{221e}", "-", "NaN", "+", "\u{202f}"),
    row(Locale::fr_SN, Grouping::Standard, ",", "\u{221e}", "-", "NaN", "+", "\u{202f}"),
    row(Locale::fr_SY, Grouping::Standard, ",", "\u{221e}", "-", "NaN", "+", "\u{202f}"),
    row(Locale::fr_TD, Grouping::Standard, ",", "\u{221e}", "-", "NaN", "+", "\u{202f}"),
    row(Locale::fr_TG, Grouping::Standard, ",", "\u{221e}", "-", "NaN", "+", "\u{202f}"),
    row(Locale::fr_TN, Grouping::Standard, ",", "\u{221e}", "-", "NaN", "+", "\u{202f}"),
    row(Locale::fr_VU, Grouping::Standard, ",", "\u{221e}", "-", "NaN", "+", "\u{202f}"),
    row(Locale::fr_WF, Grouping::Standard, ",", "\u{221e}", "-", "NaN", "+", "\u{202f}"),
    row(Locale::fr_YT, Grouping::Standard, ",", "\u{221e}", "-", "NaN", "+", "\u{202f}"),
    row(Locale::fur, Grouping::Standard, ",", "\u{221e}", "-", "NaN", "+", "."),
    row(Locale::fy, Grouping::Standard, ",", "\u{221e}", "-", "NaN", "+", "."),
    row(Locale::ga, Grouping::Standard, ".", "\u{221e}", "-", "NaN", "+", ","),
    row(Locale::ga_GB, Grouping::Standard, ".", "\u{221e}", "-", "NaN", "+", ","),
    row(Locale::gd, Grouping::Standard, ".", "\u{221e}", "-", "NaN", "+", ","),
    row(Locale::gl, Grouping::Standard, ",", "\u{221e}", "-", "NaN", "+", "."),
    row(Locale::gsw, Grouping::Standard, ".", "\u{221e}", "\u{2212}", "NaN", "+", "\u{2019}"),
    row(Locale::gsw_FR, Grouping::Standard, ".", "\u{221e}", "\u{2212}", "NaN", "+", "\u{2019}"),
    row(Locale::gsw_LI, Grouping::Standard, ".", "\u{221e}", "\u{2212}", "NaN", "+", "\u{2019}"),
    row(Locale::gu, Grouping::Indian, ".", "\u{221e}", "-", "NaN", "+", ","),
    row(Locale::guz, Grouping::Standard, ".", "\u{221e}", "-", "NaN", "+", ","),
    row(Locale::gv, Grouping::Standard, ".", "\u{221e}", "-", "NaN", "+", ","),
    row(Locale::ha, Grouping::Standard, ".", "\u{221e}", "-", "NaN", "+", ","),
    row(Locale::ha_GH, Grouping::Standard, ".", "\u{221e}", "-", "NaN", "+", ","),
    row(Locale::ha_NE, Grouping::Standard, ".", "\u{221e}", "-", "NaN", "+", ","),
    row(Locale::haw, Grouping::Standard, ".", "\u{221e}", "-", "NaN", "+", ","),
    row(Locale::he, Grouping::Standard, ".", "\u{221e}", "\u{200e}-", "NaN", "\u{200e}+", ","),
    row(Locale::hi, Grouping::Indian, ".", "\u{221e}", "-", "NaN", "+", ","),
    row(Locale::hr, Grouping::Standard, ",", "\u{221e}", "-", "NaN", "+", "."),
    row(Locale::hr_BA, Grouping::Standard, ",", "\u{221e}", "-", "NaN", "+", "."),
    row(Locale::hsb, Grouping::Standard, ",", "\u{221e}", "-", "NaN", "+", "."),
    row(Locale::hu, Grouping::Standard, ",", "\u{221e}", "-", "NaN", "+", "\u{a0}"),
    row(Locale::hy, Grouping::Standard, ",", "\u{221e}", "-", "ՈչԹ", "+", "\u{a0}"),
    row(Locale::ia, Grouping::Standard, ",", "\u{221e}", "-", "NaN", "+", "."),
    row(Locale::id, Grouping::Standard, ",", "\u{221e}", "-", "NaN", "+", "."),
    row(Locale::ig, Grouping::Standard, ".", "\u{221e}", "-", "NaN", "+", ","),
    row(Locale::ii, Grouping::Standard, ".", "\u{221e}", "-", "NaN", "+", ","),
    row(Locale::is, Grouping::Standard, ",", "\u{221e}", "-", "NaN", "+", "."),
    row(Locale::it, Grouping::Standard, ",", "\u{221e}", "-", "NaN", "+", "."),
    row(Locale::it_CH, Grouping::Standard, ".", "\u{221e}", "-", "NaN", "+", "\u{2019}"),
    row(Locale::it_SM, Grouping::Standard, ",", "\u{221e}", "-", "NaN", "+", "."),
    row(Locale::it_VA, Grouping::Standard, ",", "\u{221e}", "-", "NaN", "+", "."),
    row(Locale::ja, Grouping::Standard, ".", "\u{221e}", "-", "NaN", "+", ","),
    row(Locale::jgo, Grouping::Standard, ",", "\u{221e}", "-", "NaN", "+", "."),
    row(Locale::jmc, Grouping::Standard, ".", "\u{221e}", "-", "NaN", "+", ","),
    row(Locale::jv, Grouping::Standard, ",", "\u{221e}", "-", "NaN", "+", "."),
    row(Locale::ka, Grouping::Standard, ",", "\u{221e}", "-", "არ\u{a0}არის\u{a0}რიცხვი", "+", "\u{a0}"),
    row(Locale::kab, Grouping::Standard, ",", "\u{221e}", "-", "NaN", "+", "\u{a0}"),
    row(Locale::kam, Grouping::Standard, ".", "\u{221e}", "-", "NaN", "+", ","),
    row(Locale::kde, Grouping::Standard, ".", "\u{221e}", "-", "NaN", "+", ","),
    row(Locale::kea, Grouping::Standard, ",", "\u{221e}", "-", "NaN", "+", "\u{a0}"),
    row(Locale::khq, Grouping::Standard, ".", "\u{221e}", "-", "NaN", "+", "\u{a0}"),
    row(Locale::ki, Grouping::Standard, ".", "\u{221e}", "-", "NaN", "+", ","),
    row(Locale::kk, Grouping::Standard, ",", "\u{221e}", "-", "сан\u{a0}емес", "+", "\u{a0}"),
    row(Locale::kkj, Grouping::Standard, ",", "\u{221e}", "-", "NaN", "+", "."),
    row(Locale::kl, Grouping::Standard, ",", "\u{221e}", "-", "NaN", "+", "."),
    row(Locale::kln, Grouping::Standard, ".", "\u{221e}", "-", "NaN", "+", ","),
    row(Locale::km, Grouping::Standard, ",", "\u{221e}", "-", "NaN", "+", "."),
    row(Locale::kn, Grouping::Standard, ".", "\u{221e}", "-", "NaN", "+", ","),
    row(Locale::ko, Grouping::Standard, ".", "\u{221e}", "-", "NaN", "+", ","),
    row(Locale::ko_KP, Grouping::Standard, ".", "\u{221e}", "-", "NaN", "+", ","),
    row(Locale::kok, Grouping::Standard, ".", "\u{221e}", "-", "NaN", "+", ","),
    row(Locale::ks, Grouping::Indian, "\u{66b}", "\u{221e}", "\u{200e}-\u{200e}", "NaN", "\u{200e}+\u{200e}", "\u{66c}"),
    row(Locale::ksb, Grouping::Standard, ".", "\u{221e}", "-", "NaN", "+", ","),
    row(Locale::ksf, Grouping::Standard, ",", "\u{221e}", "-", "NaN", "+", "\u{a0}"),
    row(Locale::ksh, Grouping::Standard, ",", "\u{221e}", "\u{2212}", "NaN", "+", "\u{a0}"),
    row(Locale::ku, Grouping::Standard, ",", "\u{221e}", "-", "NaN", "+", "."),
    row(Locale::kw, Grouping::Standard, ".", "\u{221e}", "-", "NaN", "+", ","),
    row(Locale::ky, Grouping::Standard, ",", "\u{221e}", "-", "сан\u{a0}эмес", "+", "\u{a0}"),
    row(Locale::lag, Grouping::Standard, ".", "\u{221e}", "-", "NaN", "+", ","),
    row(Locale::lb, Grouping::Standard, ",", "\u{221e}", "-", "NaN", "+", "."),
    row(Locale::lg, Grouping::Standard, ".", "\u{221e}", "-", "NaN", "+", ","),
    row(Locale::lkt, Grouping::Standard, ".", "\u{221e}", "-", "NaN", "+", ","),
    row(Locale::ln, Grouping::Standard, ",", "\u{221e}", "-", "NaN", "+", "."),
    row(Locale::ln_AO, Grouping::Standard, ",", "\u{221e}", "-", "NaN", "+", "."),
    row(Locale::ln_CF, Grouping::Standard, ",", "\u{221e}", "-", "NaN", "+", "."),
    row(Locale::ln_CG, Grouping::Standard, ",", "\u{221e}", "-", "NaN", "+", "."),
    row(Locale::lo, Grouping::Standard, ",", "\u{221e}", "-", "ບ\u{ecd}\u{ec8}\u{200b}ແມ\u{ec8}ນ\u{200b}ໂຕ\u{200b}ເລກ", "+", "."),
    row(Locale::lrc, Grouping::Standard, "\u{66b}", "\u{221e}", "\u{200e}-\u{200e}", "NaN", "\u{200e}+\u{200e}", "\u{66c}"),
    row(Locale::lrc_IQ, Grouping::Standard, "\u{66b}", "\u{221e}", "\u{200e}-\u{200e}", "NaN", "\u{200e}+\u{200e}", "\u{66c}"),
    row(Locale::lt, Grouping::Standard, ",", "\u{221e}", "\u{2212}", "NaN", "+", "\u{a0}"),
    row(Locale::lu, Grouping::Standard, ",", "\u{221e}", "-", "NaN", "+", "."),
    row(Locale::luo, Grouping::Standard, ".", "\u{221e}", "-", "NaN", "+", ","),
    row(Locale::luy, Grouping::Standard, ".", "\u{221e}", "-", "NaN", "+", ","),
    row(Locale::lv, Grouping::Standard, ",", "\u{221e}", "-", "NS", "+", "\u{a0}"),
    row(Locale::mas, Grouping::Standard, ".", "\u{221e}", "-", "NaN", "+", ","),
    row(Locale::mas_TZ, Grouping::Standard, ".", "\u{221e}", "-", "NaN", "+", ","),
    row(Locale::mer, Grouping::Standard, ".", "\u{221e}", "-", "NaN", "+", ","),
    row(Locale::mfe, Grouping::Standard, ".", "\u{221e}", "-", "NaN", "+", "\u{a0}"),
    row(Locale::mg, Grouping::Standard, ".", "\u{221e}", "-", "NaN", "+", ","),
    row(Locale::mgh, Grouping::Standard, ",", "\u{221e}", "-", "NaN", "+", "."),
    row(Locale::mgo, Grouping::Standard, ".", "\u{221e}", "-", "NaN", "+", ","),
    row(Locale::mi, Grouping::Standard, ".", "\u{221e}", "-", "NaN", "+", ","),
    row(Locale::mk, Grouping::Standard, ",", "\u{221e}", "-", "NaN", "+", "."),
    row(Locale::ml, Grouping::Indian, ".", "\u{221e}", "-", "NaN", "+", ","),
    row(Locale::mn, Grouping::Standard, ".", "\u{221e}", "-", "NaN", "+", ","),
    row(Locale::mr, Grouping::Indian, ".", "\u{221e}", "-", "NaN", "+", ","),
    row(Locale::ms, Grouping::Standard, ".", "\u{221e}", "-", "NaN", "+", ","),
    row(Locale::ms_BN, Grouping::Standard, ",", "\u{221e}", "-", "NaN", "+", "."),
    row(Locale::ms_SG, Grouping::Standard, ".", "\u{221e}", "-", "NaN", "+", ","),
    row(Locale::mt, Grouping::Standard, ".", "\u{221e}", "-", "NaN", "+", ","),
    row(Locale::mua, Grouping::Standard, ",", "\u{221e}", "-", "NaN", "+", "."),
    row(Locale::my, Grouping::Standard, ".", "\u{221e}", "-", "ဂဏန\u{103a}\u{1038}မဟ\u{102f}တ\u{103a}သ\u{1031}\u{102c}", "+", ","),
    row(Locale::mzn, Grouping::Standard, "\u{66b}", "\u{221e}", "\u{200e}-\u{200e}", "NaN", "\u{200e}+\u{200e}", "\u{66c}"),
    row(Locale::naq, Grouping::Standard, ".", "\u{221e}", "-", "NaN", "+", ","),
    row(Locale::nb, Grouping::Standard, ",", "\u{221e}", "\u{2212}", "NaN", "+", "\u{a0}"),
    row(Locale::nb_SJ, Grouping::Standard, ",", "\u{221e}", "\u{2212}", "NaN", "+", "\u{a0}"),
    row(Locale::nd, Grouping::Standard, ".", "\u{221e}", "-", "NaN", "+", ","),
    row(Locale::nds, Grouping::Standard, ".", "\u{221e}", "-", "NaN", "+", ","),
    row(Locale::nds_NL, Grouping::Standard, ".", "\u{221e}", "-", "NaN", "+", ","),
    row(Locale::ne, Grouping::Indian, ".", "\u{221e}", "-", "NaN", "+", ","),
    row(Locale::ne_IN, Grouping::Indian, ".", "\u{221e}", "-", "NaN", "+", ","),
    row(Locale::nl, Grouping::Standard, ",", "\u{221e}", "-", "NaN", "+", "."),
    row(Locale::nl_AW, Grouping::Standard, ",", "\u{221e}", "-", "NaN", "+", "."),
    row(Locale::nl_BE, Grouping::Standard, ",", "\u{221e}", "-", "NaN", "+", "."),
    row(Locale::nl_BQ, Grouping::Standard, ",", "\u{221e}", "-", "NaN", "+", "."),
    row(Locale::nl_CW, Grouping::Standard, ",", "\u{221e}", "-", "NaN", "+", "."),
    row(Locale::nl_SR, Grouping::Standard, ",", "\u{221e}", "-", "NaN", "+", "."),
    row(Locale::nl_SX, Grouping::Standard, ",", "\u{221e}", "-", "NaN", "+", "."),
    row(Locale::nmg, Grouping::Standard, ",", "\u{221e}", "-", "NaN", "+", "\u{a0}"),
    row(Locale::nn, Grouping::Standard, ",", "\u{221e}", "\u{2212}", "NaN", "+", "\u{a0}"),
    row(Locale::nnh, Grouping::Standard, ",", "\u{221e}", "-", "NaN", "+", "."),
    row(Locale::nus, Grouping::Standard, ".", "\u{221e}", "-", "NaN", "+", ","),
    row(Locale::nyn, Grouping::Standard, ".", "\u{221e}", "-", "NaN", "+", ","),
    row(Locale::om, Grouping::Standard, ".", "\u{221e}", "-", "NaN", "+", ","),
    row(Locale::om_KE, Grouping::Standard, ".", "\u{221e}", "-", "NaN", "+", ","),
    row(Locale::or, Grouping::Indian, ".", "\u{221e}", "-", "NaN", "+", ","),
    row(Locale::os, Grouping::Standard, ",", "\u{221e}", "-", "НН", "+", "\u{a0}"),
    row(Locale::os_RU, Grouping::Standard, ",", "\u{221e}", "-", "НН", "+", "\u{a0}"),
    row(Locale::pa, Grouping::Indian, ".", "\u{221e}", "-", "NaN", "+", ","),
    row(Locale::pa_Arab, Grouping::Standard, "\u{66b}", "\u{221e}", "\u{200e}-\u{200e}", "NaN", "\u{200e}+\u{200e}", "\u{66c}"),
    row(Locale::pa_Guru, Grouping::Indian, ".", "\u{221e}", "-", "NaN", "+", ","),
    row(Locale::pl, Grouping::Standard, ",", "\u{221e}", "-", "NaN", "+", "\u{a0}"),
    row(Locale::prg, Grouping::Standard, ".", "\u{221e}", "-", "NaN", "+", ","),
    row(Locale::ps, Grouping::Standard, "\u{66b}", "\u{221e}", "\u{200e}-\u{200e}", "NaN", "\u{200e}+\u{200e}", "\u{66c}"),
    row(Locale::ps_PK, Grouping::Standard, "\u{66b}", "\u{221e}", "\u{200e}-\u{200e}", "NaN", "\u{200e}+\u{200e}", "\u{66c}"),
    row(Locale::pt, Grouping::Standard, ",", "\u{221e}", "-", "NaN", "+", "."),
    row(Locale::pt_AO, Grouping::Standard, ",", "\u{221e}", "-", "NaN", "+", "\u{a0}"),
    row(Locale::pt_CH, Grouping::Standard, ",", "\u{221e}", "-", "NaN", "+", "\u{a0}"),
    row(Locale::pt_CV, Grouping::Standard, ",", "\u{221e}", "-", "NaN", "+", "\u{a0}"),
    row(Locale::pt_GQ, Grouping::Standard, ",", "\u{221e}", "-", "NaN", "+", "\u{a0}"),
    row(Locale::pt_GW, Grouping::Standard, ",", "\u{221e}", "-", "NaN", "+", "\u{a0}"),
    row(Locale::pt_LU, Grouping::Standard, ",", "\u{221e}", "-", "NaN", "+", "\u{a0}"),
    row(Locale::pt_MO, Grouping::Standard, ",", "\u{221e}", "-", "NaN", "+", "\u{a0}"),
    row(Locale::pt_MZ, Grouping::Standard, ",", "\u{221e}", "-", "NaN", "+", "\u{a0}"),
    row(Locale::pt_PT, Grouping::Standard, ",", "\u{221e}", "-", "NaN", "+", "\u{a0}"),
    row(Locale::pt_ST, Grouping::Standard, ",", "\u{221e}", "-", "NaN", "+", "\u{a0}"),
    row(Locale::pt_TL, Grouping::Standard, ",", "\u{221e}", "-", "NaN", "+", "\u{a0}"),
    row(Locale::qu, Grouping::Standard, ".", "\u{221e}", "-", "NaN", "+", ","),
    row(Locale::qu_BO, Grouping::Standard, ",", "\u{221e}", "-", "NaN", "+", "."),
    row(Locale::qu_EC, Grouping::Standard, ".", "\u{221e}", "-", "NaN", "+", ","),
    row(Locale::rm, Grouping::Standard, ".", "\u{221e}", "\u{2212}", "NaN", "+", "\u{2019}"),
    row(Locale::rn, Grouping::Standard, ",", "\u{221e}", "-", "NaN", "+", "."),
    row(Locale::ro, Grouping::Standard, ",", "\u{221e}", "-", "NaN", "+", "."),
    row(Locale::ro_MD, Grouping::Standard, ",", "\u{221e}", "-", "NaN", "+", "."),
    row(Locale::rof, Grouping::Standard, ".", "\u{221e}", "-", "NaN", "+", ","),
    row(Locale::root, Grouping::Standard, ".", "\u{221e}", "-", "NaN", "+", ","),
    row(Locale::ru, Grouping::Standard, ",", "\u{221e}", "-", "не\u{a0}число", "+", "\u{a0}"),
    row(Locale::ru_BY, Grouping::Standard, ",", "\u{221e}", "-", "не\u{a0}число", "+", "\u{a0}"),
    row(Locale::ru_KG, Grouping::Standard, ",", "\u{221e}", "-", "не\u{a0}число", "+", "\u{a0}"),
    row(Locale::ru_KZ, Grouping::Standard, ",", "\u{221e}", "-", "не\u{a0}число", "+", "\u{a0}"),
    row(Locale::ru_MD, Grouping::Standard, ",", "\u{221e}", "-", "не\u{a0}число", "+", "\u{a0}"),
    row(Locale::ru_UA, Grouping::Standard, ",", "\u{221e}", "-", "не\u{a0}число", "+", "\u{a0}"),
    row(Locale::rw, Grouping::Standard, ",", "\u{221e}", "-", "NaN", "+", "."),
    row(Locale::rwk, Grouping::Standard, ".", "\u{221e}", "-", "NaN", "+", ","),
    row(Locale::sah, Grouping::Standard, ",", "\u{221e}", "-", "чыыһыла\u{a0}буотах", "+", "\u{a0}"),
    row(Locale::saq, Grouping::Standard, ".", "\u{221e}", "-", "NaN", "+", ","),
    row(Locale::sbp, Grouping::Standard, ".", "\u{221e}", "-", "NaN", "+", ","),
    row(Locale::sd, Grouping::Standard, "\u{66b}", "\u{221e}", "\u{61c}-", "NaN", "\u{61c}+", "\u{66c}"),
    row(Locale::se, Grouping::Standard, ",", "\u{221e}", "\u{2212}", "NaN", "+", "\u{a0}"),
    row(Locale::se_FI, Grouping::Standard, ",", "\u{221e}", "\u{2212}", "NaN", "+", "\u{a0}"),
    row(Locale::se_SE, Grouping::Standard, ",", "\u{221e}", "\u{2212}", "NaN", "+", "\u{a0}"),
    row(Locale::seh, Grouping::Standard, ",", "\u{221e}", "-", "NaN", "+", "."),
    row(Locale::ses, Grouping::Standard, ".", "\u{221e}", "-", "NaN", "+", "\u{a0}"),
    row(Locale::sg, Grouping::Standard, ",", "\u{221e}", "-", "NaN", "+", "."),
    row(Locale::shi, Grouping::Standard, ",", "\u{221e}", "-", "NaN", "+", "\u{a0}"),
    row(Locale::shi_Latn, Grouping::Standard, ",", "\u{221e}", "-", "NaN", "+", "\u{a0}"),
    row(Locale::shi_Tfng, Grouping::Standard, ",", "\u{221e}", "-", "NaN", "+", "\u{a0}"),
    row(Locale::si, Grouping::Standard, ".", "\u{221e}", "-", "NaN", "+", ","),
    row(Locale::sk, Grouping::Standard, ",", "\u{221e}", "-", "NaN", "+", "\u{a0}"),
    row(Locale::sl, Grouping::Standard, ",", "\u{221e}", "\u{2212}", "NaN", "+", "."),
    row(Locale::smn, Grouping::Standard, ",", "\u{221e}", "-", "epiloho", "+", "\u{a0}"),
    row(Locale::sn, Grouping::Standard, ".", "\u{221e}", "-", "NaN", "+", ","),
    row(Locale::so, Grouping::Standard, ".", "\u{221e}", "-", "MaL", "+", ","),
    row(Locale::so_DJ, Grouping::Standard, ".", "\u{221e}", "-", "MaL", "+", ","),
    row(Locale::so_ET, Grouping::Standard, ".", "\u{221e}", "-", "MaL", "+", ","),
    row(Locale::so_KE, Grouping::Standard, ".", "\u{221e}", "-", "MaL", "+", ","),
    row(Locale::sq, Grouping::Standard, ",", "\u{221e}", "-", "NaN", "+", "\u{a0}"),
    row(Locale::sq_MK, Grouping::Standard, ",", "\u{221e}", "-", "NaN", "+", "\u{a0}"),
    row(Locale::sq_XK, Grouping::Standard, ",", "\u{221e}", "-", "NaN", "+", "\u{a0}"),
    row(Locale::sr, Grouping::Standard, ",", "\u{221e}", "-", "NaN", "+", "."),
    row(Locale::sr_Cyrl, Grouping::Standard, ",", "\u{221e}", "-", "NaN", "+", "."),
    row(Locale::sr_Cyrl_BA, Grouping::Standard, ",", "\u{221e}", "-", "NaN", "+", "."),
    row(Locale::sr_Cyrl_ME, Grouping::Standard, ",", "\u{221e}", "-", "NaN", "+", "."),
    row(Locale::sr_Cyrl_XK, Grouping::Standard, ",", "\u{221e}", "-", "NaN", "+", "."),
    row(Locale::sr_Latn, Grouping::Standard, ",", "\u{221e}", "-", "NaN", "+", "."),
    row(Locale::sr_Latn_BA, Grouping::Standard, ",", "\u{221e}", "-", "NaN", "+", "."),
    row(Locale::sr_Latn_ME, Grouping::Standard, ",", "\u{221e}", "-", "NaN", "+", "."),
    row(Locale::sr_Latn_XK, Grouping::Standard, ",", "\u{221e}", "-", "NaN", "+", "."),
    row(Locale::sv, Grouping::Standard, ",", "\u{221e}", "\u{2212}", "NaN", "+", "\u{a0}"),
    row(Locale::sv_AX, Grouping::Standard, ",", "\u{221e}", "\u{2212}", "NaN", "+", "\u{a0}"),
    row(Locale::sv_FI, Grouping::Standard, ",", "\u{221e}", "\u{2212}", "NaN", "+", "\u{a0}"),
    row(Locale::sw, Grouping::Standard, ".", "\u{221e}", "-", "NaN", "+", ","),
    row(Locale::sw_CD, Grouping::Standard, ",", "\u{221e}", "-", "NaN", "+", "."),
    row(Locale::sw_KE, Grouping::Standard, ".", "\u{221e}", "-", "NaN", "+", ","),
    row(Locale::sw_UG, Grouping::Standard, ".", "\u{221e}", "-", "NaN", "+", ","),
    row(Locale::ta, Grouping::Indian, ".", "\u{221e}", "-", "NaN", "+", ","),
    row(Locale::ta_LK, Grouping::Indian, ".", "\u{221e}", "-", "NaN", "+", ","),
    row(Locale::ta_MY, Grouping::Standard, ".", "\u{221e}", "-", "NaN", "+", ","),
    row(Locale::ta_SG, Grouping::Standard, ".", "\u{221e}", "-", "NaN", "+", ","),
    row(Locale::te, Grouping::Indian, ".", "\u{221e}", "-", "NaN", "+", ","),
    row(Locale::teo, Grouping::Standard, ".", "\u{221e}", "-", "NaN", "+", ","),
    row(Locale::teo_KE, Grouping::Standard, ".", "\u{221e}", "-", "NaN", "+", ","),
    row(Locale::tg, Grouping::Standard, ",", "\u{221e}", "-", "NaN", "+", "\u{a0}"),
    row(Locale::th, Grouping::Standard, ".", "\u{221e}", "-", "NaN", "+", ","),
    row(Locale::ti, Grouping::Standard, ".", "\u{221e}", "-", "NaN", "+", ","),
    row(Locale::ti_ER, Grouping::Standard, ".", "\u{221e}", "-", "NaN", "+", ","),
    row(Locale::tk, Grouping::Standard, ",", "\u{221e}", "-", "san\u{a0}däl", "+", "\u{a0}"),
    row(Locale::to, Grouping::Standard, ".", "\u{221e}", "-", "TF", "+", ","),
    row(Locale::tr, Grouping::Standard, ",", "\u{221e}", "-", "NaN", "+", "."),
    row(Locale::tr_CY, Grouping::Standard, ",", "\u{221e}", "-", "NaN", "+", "."),
    row(Locale::tt, Grouping::Standard, ",", "\u{221e}", "-", "NaN", "+", "\u{a0}"),
    row(Locale::twq, Grouping::Standard, ".", "\u{221e}", "-", "NaN", "+", "\u{a0}"),
    row(Locale::tzm, Grouping::Standard, ",", "\u{221e}", "-", "NaN", "+", "\u{a0}"),
    row(Locale::ug, Grouping::Standard, ".", "\u{221e}", "-", "NaN", "+", ","),
    row(Locale::uk, Grouping::Standard, ",", "\u{221e}", "-", "NaN", "+", "\u{a0}"),
    row(Locale::ur, Grouping::Standard, ".", "\u{221e}", "\u{200e}-", "NaN", "\u{200e}+", ","),
    row(Locale::ur_IN, Grouping::Standard, "\u{66b}", "\u{221e}", "\u{200e}-\u{200e}", "NaN", "\u{200e}+\u{200e}", "\u{66c}"),
    row(Locale::uz, Grouping::Standard, ",", "\u{221e}", "-", "son\u{a0}emas", "+", "\u{a0}"),
    row(Locale::uz_Arab, Grouping::Standard, "\u{66b}", "\u{221e}", "\u{200e}-\u{200e}", "NaN", "\u{200e}+\u{200e}", "\u{66c}"),
    row(Locale::uz_Cyrl, Grouping::Standard, ",", "\u{221e}", "-", "ҳақиқий\u{a0}сон\u{a0}эмас", "+", "\u{a0}"),
    row(Locale::uz_Latn, Grouping::Standard, ",", "\u{221e}", "-", "son\u{a0}emas", "+", "\u{a0}"),
    row(Locale::vai, Grouping::Standard, ".", "\u{221e}", "-", "NaN", "+", ","),
    row(Locale::vai_Latn, Grouping::Standard, ".", "\u{221e}", "-", "NaN", "+", ","),
    row(Locale::vai_Vaii, Grouping::Standard, ".", "\u{221e}", "-", "NaN", "+", ","),
    row(Locale::vi, Grouping::Standard, ",", "\u{221e}", "-", "NaN", "+", "."),
    row(Locale::vo, Grouping::Standard, ".", "\u{221e}", "-", "NaN", "+", ","),
    row(Locale::vun, Grouping::Standard, ".", "\u{221e}", "-", "NaN", "+", ","),
    row(Locale::wae, Grouping::Standard, ",", "\u{221e}", "-", "NaN", "+", "\u{2019}"),
    row(Locale::wo, Grouping::Standard, ",", "\u{221e}", "-", "NaN", "+", "."),
    row(Locale::xh, Grouping::Standard, ".", "\u{221e}", "-", "NaN", "+", "\u{a0}"),
    row(Locale::xog, Grouping::Standard, ".", "\u{221e}", "-", "NaN", "+", ","),
    row(Locale::yav, Grouping::Standard, ",", "\u{221e}", "-", "NaN", "+", "\u{a0}"),
    row(Locale::yi, Grouping::Standard, ".", "\u{221e}", "-", "NaN", "+", ","),
    row(Locale::yo, Grouping::Standard, ".", "\u{221e}", "-", "NaN", "+", ","),
    row(Locale::yo_BJ, Grouping::Standard, ".", "\u{221e}", "-", "NaN", "+", ","),
    row(Locale::yue, Grouping::Standard, ".", "\u{221e}", "-", "非數值", "+", ","),
    row(Locale::yue_Hans, Grouping::Standard, ".", "\u{221e}", "-", "非数值", "+", ","),
    row(Locale::yue_Hant, Grouping::Standard, ".", "\u{221e}", "-", "非數值", "+", ","),
    row(Locale::zgh, Grouping::Standard, ",", "\u{221e}", "-", "NaN", "+", "\u{a0}"),
    row(Locale::zh, Grouping::Standard, ".", "\u{221e}", "-", "NaN", "+", ","),
    row(Locale::zh_Hans, Grouping::Standard, ".", "\u{221e}", "-", "NaN", "+", ","),
    row(Locale::zh_Hans_HK, Grouping::Standard, ".", "\u{221e}", "-", "NaN", "+", ","),
    row(Locale::zh_Hans_MO, Grouping::Standard, ".", "\u{221e}", "-", "NaN", "+", ","),
    row(Locale::zh_Hans_SG, Grouping::Standard, ".", "\u{221e}", "-", "NaN", "+", ","),
    row(Locale::zh_Hant, Grouping::Standard, ".", "\u{221e}", "-", "非數值", "+", ","),
    row(Locale::zh_Hant_HK, Grouping::Standard, ".", "\u{221e}", "-", "非數值", "+", ","),
    row(Locale::zh_Hant_MO, Grouping::Standard, ".", "\u{221e}", "-", "非數值", "+", ","),
    row(Locale::zu, Grouping::Standard, ".", "\u{221e}", "-", "NaN", "+", ","),
];
